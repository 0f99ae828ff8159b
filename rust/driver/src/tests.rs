//! What the line protocol cannot ask, and the driver's own reading.

use crate::books;
use crate::command::{self, Change, Index, Table};
use crate::lent::{Dirt, Lists};
use cablesalak::raw::{self, AtLeast, Checked, Columns, ColumnsMut, ListsMut, RawMode, LINE};

#[test]
fn what_is_no_command() {
    let lines = [
        "",
        " ",
        "foo",
        "eval",
        "eval 4 3 1,0,1 2",
        "eval 4 3 1,0,1 2 1 ",
        "eval 4  3 1,0,1 2 1",
        "eval 4 +3 1,0,1 2 1",
        "eval 4 3 1,0,1; 2 1",
        "eval 4 3 1,0 2 1",
        "eval 4 3 1,0,1,1 2 1",
        "eval 4 3 1,0,1 2 18446744073709551616",
        "check 4 2048 4096 4E -",
        "check 4 2048 4096 4 -",
        "check 4 2048 4096 - --",
        "check 4 2048 4096 -",
        "not 4 3 @ 2",
        "not 4 3 - 2 !",
        "not 4 3 - 2 !H",
        "not 4 3 - 2 !HS",
        "not 4 3 - 2 !HS=",
        "not 4 3 - 2 !HS=-1",
        "not 4 3 - 2 !H=1",
        "not 4 3 - 2 !H:1",
        "not 4 3 - 2 !H:=1",
        "not 4 3 - 2 !L:1=65536",
        "not 4 3 - 2 !LS:1=1",
        "not 4 3 - !HS=8 2",
        "check 4 2048 4096 - - !H:1=1",
        "drat 4 2048 4096 - - !L:1=1",
        "drat 4 2048 4096 -",
        "drat 4 2048 4096 - 4E",
        "drat 4 3 - 2 1",
        "atleast 4 3 - 3",
        "atleast 4 3 - 3 1 1",
        "atleast 4 3 - 3 256",
        "atleast 4 3 - 3 -1",
        "atleast 4 3 - 18446744073709551616 1",
        "at_least 4 3 - 3 1",
        "dratb 4 2048 4096 - - !L:1=1",
        "dratb 4 2048 4096 -",
        "cons",
        "cons ",
        "cons not 4 3 - 2",
        "cons tobin 4 -",
        "cons cons check 4 2048 4096 - -",
        "cons check 4 2048 4096 -",
        "cons check 4 2048 4096 - - !H:1=1",
        "check cons 4 2048 4096 - -",
        "open 8 2048 2048 4096 3",
        "open 8 2048 2048 4096 3 3 3",
        "open 8 2048 2048 4096 3 18446744073709551616",
        "open 8 2048 2048 4096 3 3 !heads=3",
        "book C 45",
        "book A",
        "book A 4E",
        "book A 45 !count=3",
        "dump A",
        "kept",
        "kept C",
        "altered A",
        "altered A 45 ",
        "altered A 45 count=3",
        "altered A 45 !counts=3",
        "altered A 45 !own",
        "altered A 45 !own:1",
        "altered A 45 !own:1=65536",
        "altered A 45 !count:1=1",
        "altered A 45 !node=1,0",
        "tobin 4",
        "tobin 4 - -",
        "tobin 4 - !HS=3",
        "tobin -1 -",
        "totext 4 6",
        "totext 4 6A",
        "totext 16777217 -",
    ];
    for line in lines {
        assert!(command::read(line).is_none() && books::read(line).is_none(), "{line}");
    }
}

#[test]
fn what_is_a_command() {
    let lines = [
        "eval 0 0 - 0 0",
        "not 4 3 @- 2",
        "lits 4 3 @1,0,0;0,0,0;1,0,1 2 1 18446744073709551615",
        "check 0 0 0 - 4e0a",
        "not 4 3 - 2 !H:1=65535 !L:99=0 !HS=0 !LS=9 !H:1=2",
        "check 4 2048 4096 - - !LS=3 !HS=9",
        "drat 4 2048 4096 70 320a !HS=3",
        "drat 0 0 0 - -",
        "atleast 4 3 - 18446744073709551615 255",
        "atleast 0 0 @- 0 0 !L:1=2 !HS=3",
        "dratb 4 2048 4096 70 6100 !HS=3",
        "cons check 4 2048 4096 70 45 !LS=3",
        "cons drat 4 2048 4096 70 300a",
        "cons dratb 0 0 0 - -",
        "tobin 0 -",
        "tobin 9 312030",
        "totext 16777216 610200",
    ];
    for line in lines {
        assert!(command::read(line).is_some(), "{line}");
    }
}

/// Columns of unequal length, and heads and links that do not go with them, are of wrong size, whatever they hold: 7, and nothing else is
/// said or changed.
#[test]
fn unequal_lists() {
    let columns =
        [[4, 4, 3], [4, 3, 4], [3, 4, 4], [4, 5, 5], [0, 4, 4], [4, 0, 4], [4, 4, 0], [65_536, 65_536, 65_537]];
    for [vars, lows, highs] in columns {
        refused_by_all(Sizes { vars, lows, highs, heads: 2 * vars, links: vars });
    }
    let right = Sizes { vars: 4, lows: 4, highs: 4, heads: 8, links: 4 };
    for heads in [0, 1, 4, 7, 9, 16] {
        refused_by_all(Sizes { heads, ..right });
    }
    for links in [0, 3, 5, 8] {
        refused_by_all(Sizes { links, ..right });
    }
    refused_by_all(Sizes { heads: 4, links: 8, ..right });
}

#[derive(Clone, Copy)]
struct Sizes {
    vars: usize,
    lows: usize,
    highs: usize,
    heads: usize,
    links: usize,
}

fn refused_by_all(sizes: Sizes) {
    let Sizes { vars, lows, highs, heads, links } = sizes;
    let mut vars = vec![7u8; vars];
    let [mut lows, mut highs, mut heads, mut links] = [lows, highs, heads, links].map(|length| vec![8u16; length]);
    let said =
        raw::evaluate(Columns { vars: &vars, lows: &lows, highs: &highs, heads: &heads, links: &links }, 2, 1, 0);
    assert_eq!((said.number, said.yes, said.count), (7, false, 2));
    let (vars, lows, highs, heads, links) =
        (&mut vars[..], &mut lows[..], &mut highs[..], &mut heads[..], &mut links[..]);
    let mut table = ColumnsMut { vars, lows, highs, heads, links };
    let said = [
        raw::conjunction(&mut table, 2, 1, 1),
        raw::negation(&mut table, 2, 1),
        raw::cofactor(&mut table, 2, 1, 0),
        raw::cofactor_literals(&mut table, 2, 1, 1, 1),
    ];
    assert!(said.iter().all(|said| (said.number, said.node, said.count) == (7, 0, 2)));
    let said = raw::at_least(&mut table, 2, 3, 1);
    assert_eq!(said, AtLeast { number: 7, node: 0, count: 2, counted: false, excluded: 0 });
    refused_for_size(&mut table, 2048);
    assert!(table.vars.iter().all(|place| *place == 7));
    for list in [table.lows, table.highs, table.heads, table.links] {
        assert!(list.iter().all(|place| *place == 8));
    }
}

/// Nor has the member list a column of marks that is shorter or longer.
#[test]
fn unequal_marks() {
    for marks in [0, 1, 2047, 2049, 4096] {
        let (vars, lows, highs, heads, links) = (&mut [0; 4], &mut [0; 4], &mut [0; 4], &mut [0; 8], &mut [0; 4]);
        refused_for_size(&mut ColumnsMut { vars, lows, highs, heads, links }, marks);
    }
}

fn refused_for_size(table: &mut ColumnsMut<'_>, marks: usize) {
    let (mut members, mut struck, mut scratch) = (vec![5u16; 2048], vec![4u8; marks], vec![6u16; 4096]);
    let lists = &mut ListsMut { members: &mut members, struck: &mut struck, scratch: &mut scratch };
    let refused = Checked { number: 7, in_proof: false, place: 0, lines: 0, rounds: 0, count: 9, peak: 0 };
    for call in [raw::check, raw::check_text] {
        assert_eq!(call(table, 9, lists, b"p cnf 0 0", b"0"), refused);
    }
    for (form, consequence) in [(0, false), (0, true), (1, false), (1, true), (2, false), (2, true), (255, true)] {
        let mode = RawMode { form, consequence };
        assert_eq!(raw::check_in(mode, table, 9, lists, b"p cnf 0 0", b"0"), refused);
        let mut line = [0; LINE];
        let told = raw::report_in(mode, table, lists, Some(b"p cnf 0 0"), Some(b"0"), &mut line);
        assert_eq!((&line[..told.length], told.status), (&b"7 0 0 0 0\n"[..], 1));
    }
    assert!(members.iter().all(|place| *place == 5) && scratch.iter().all(|place| *place == 6));
    assert!(struck.iter().all(|mark| *mark == 4));
}

/// What the driver takes for the right index: three nodes of one chain, one alone, and a key that runs over the top.
#[test]
fn right_index() {
    let nodes = vec![(0, 0, 0), (0, 0, 0), (3, 0, 1), (19, 0, 1), (35, 0, 1), (2, 0, 1)];
    let mut table = Table { size: 8, count: 6, nodes, index: Index::default() };
    let lists = Lists::holding(&table);
    // 3 + 4,256,249 = 4,256,252, and by 16 heads the remainder is 12; so are those of 19 and 35; that of 2 is 11.
    let mut heads = [0; 16];
    (heads[12], heads[11]) = (4, 5);
    assert_eq!((lists.places().heads, lists.places().links), (&heads[..], &[0, 0, 0, 2, 3, 0, 0, 0][..]));
    assert!(lists.indexed(6) && !lists.indexed(5));
    table.index.changes = vec![Change::Head(12, 4), Change::Link(99, 1)];
    assert!(Lists::holding(&table).indexed(6));
    table.index.changes = vec![Change::Link(7, 2)];
    assert!(!Lists::holding(&table).indexed(6));
    // 1 + 342 times 12,582,917 = 4,303,357,615 is 8,390,319 over the top, with the remainder 15.
    let over = Table { size: 8, count: 3, nodes: vec![(0, 0, 0), (0, 0, 0), (1, 342, 0)], index: Index::default() };
    assert_eq!(Lists::holding(&over).places().heads[15], 2);
}

/// The commands of two books, and what a change does to a lent list.
#[test]
fn books() {
    let lines = [
        "open 0 0 0 0 0 18446744073709551615",
        "book A -",
        "book B 45",
        "dump",
        "kept B",
        "altered A 45",
        "altered B - !count=18446744073709551615 !own:9=65535 !own=9 !node=64,0,1 !refuted=255 !scratch=0",
    ];
    assert!(lines.iter().all(|line| books::read(line).is_some()));
    let mut opened = None;
    let mut says = |line: &str| books::answer(&books::read(line).unwrap(), &mut opened, &mut Dirt(1));
    assert_eq!((says("book A -"), says("dump")), ("7 0 0 0 0".into(), "2 | - | - | - | - | -".into()));
    assert_eq!(
        (says("open 8 2048 2048 4096 3 3"), says("open 8 2048 2048 4096 3 4")),
        ("35 0 0 0 0".into(), "32 0 0 0 0".into())
    );
    assert_eq!(says("book A 7020636e66203120310a3120300a"), "35 14 0 0 1");
    assert_eq!(says("altered A 45 !scratch=4095"), "7 0 0 0 0");
    let altered = says("altered A 45 !node=1,1,0 !struck:0=1 !variables=64");
    assert_eq!(altered, "20 0 0 0 1 | 4 | 1,0,1;1,1,0 | 2 | 1 | - | - | 3 2 20 0 64 1 0 0 1 1 0 | 2");
    assert_eq!(says("kept A"), "3 1 0 0 1 1 0 0 1 1 0 | 2");
    assert_eq!(says("dump"), "3 | 1,0,1 | 2 | 0 | - | -");
}
