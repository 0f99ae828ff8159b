//! What a call is lent that is not what the last call left: each cause of 26 at its limit and beyond it, and every size that is 7. Such a
//! call changes nothing and binds nothing.

mod common;

use common::{Lists, A, END, TWO, ZERO};

/// Case A in the first book, which has six nodes of its own and four members, on 22 places.
fn lists() -> Lists {
    let mut lists = Lists::opened(22, [10, 10]);
    assert_eq!(lists.says(0, A), [35, 38, 0, 0, 6]);
    lists
}

type Change = fn(&mut Lists);

/// The call with a change is refused with this number and changes nothing; the same call with what was left passes.
fn refused(number: u64, change: Change) {
    let mut lists = lists();
    let mut changed = lists.clone();
    change(&mut changed);
    let before = changed.clone();
    for bytes in [TWO, ZERO, END, b""] {
        assert_eq!(changed.says(0, bytes), [number, 0, 0, 0, 0]);
        assert_eq!(changed, before);
    }
    assert_eq!(lists.says(0, TWO), [35, 9, 1, 0, 8]);
}

/// The line "2" with a change gives these numbers.
fn judged(wanted: [u64; 5], change: Change) {
    let mut lists = lists();
    change(&mut lists);
    assert_eq!(lists.says(0, TWO), wanted);
}

#[test]
fn kept_numbers() {
    judged([35, 9, 1, 0, 8], |lists| lists.held[0].kept.variables = 64);
    refused(26, |lists| lists.held[0].kept.variables = 65);
    refused(26, |lists| lists.held[0].kept.variables = 255);
    judged([35, 9, 1, 0, 8], |lists| lists.held[0].kept.clauses = 1_024);
    refused(26, |lists| lists.held[0].kept.clauses = 1_025);
    refused(26, |lists| lists.held[0].kept.clauses = usize::MAX);
    judged([22, 6, 1_024, 0, 6], |lists| lists.held[0].kept.lines = 1_024);
    refused(26, |lists| lists.held[0].kept.lines = 1_025);
    refused(26, |lists| lists.held[0].kept.lines = usize::MAX);
    judged([35, 9, 1, 268_435_456, 8], |lists| lists.held[0].kept.rounds = 268_435_456);
    refused(26, |lists| lists.held[0].kept.rounds = 268_435_457);
    refused(26, |lists| lists.held[0].kept.rounds = u64::MAX);
    judged([35, 9, 1, 0, 8], |lists| lists.held[0].kept.charge = 10);
    refused(26, |lists| lists.held[0].kept.charge = 11);
    refused(26, |lists| lists.held[0].kept.charge = usize::MAX);
    judged([35, 9, 1, 0, 10], |lists| lists.held[0].kept.peak = 10);
    refused(26, |lists| lists.held[0].kept.peak = 11);
    refused(26, |lists| lists.held[0].kept.peak = usize::MAX);
}

/// The share and the free places: 14 are free, and the book has 6 nodes.
#[test]
fn free_places() {
    judged([35, 9, 1, 0, 8], |lists| lists.held[0].kept.share = 20);
    refused(26, |lists| lists.held[0].kept.share = 21);
    refused(26, |lists| lists.held[0].kept.share = usize::MAX);
    judged([23, 6, 0, 0, 6], |lists| lists.held[0].kept.share = 6);
    refused(26, |lists| lists.held[0].kept.share = 5);
    // Ten nodes of the other book's leave 4 places, as many as the book may still need; eleven leave 3.
    judged([35, 9, 1, 0, 8], |lists| (51..=60).for_each(|variable| lists.push(variable, 0, 1)));
    refused(26, |lists| (50..=60).for_each(|variable| lists.push(variable, 0, 1)));
}

/// What the own nodes and the members need is the charge, whatever is kept.
#[test]
fn charge_of_the_lists() {
    // A member that is another book's node is no 26 where it fits the share.
    judged([35, 9, 1, 0, 9], |lists| {
        lists.push(60, 0, 1);
        lists.held[0].members[3] = 8;
    });
    // The share is full of the book's own nodes: with one more that the member stands for it does not fit.
    refused(26, |lists| {
        lists.push(60, 0, 1);
        lists.held[0].kept.share = 6;
        lists.held[0].members[3] = 8;
    });
    // A number that is none of the table stands for 0.
    judged([35, 9, 1, 0, 8], |lists| lists.held[0].own[9] = 65_535);
}

#[test]
fn members_and_marks() {
    judged([35, 9, 1, 0, 8], |lists| lists.held[0].members[3] = 7);
    refused(26, |lists| lists.held[0].members[3] = 8);
    refused(26, |lists| lists.held[0].members[0] = 65_535);
    judged([35, 9, 1, 0, 8], |lists| lists.held[0].struck[3] = 1);
    refused(26, |lists| lists.held[0].struck[3] = 2);
    refused(26, |lists| lists.held[0].struck[0] = 255);
    // Behind the members nothing is looked at, and the call leaves zeros.
    let mut lists = lists();
    (lists.held[0].members[5], lists.held[0].struck[5], lists.held[0].own[9]) = (65_535, 255, 65_535);
    assert_eq!(lists.says(0, TWO), [35, 9, 1, 0, 8]);
    assert_eq!((lists.held[0].members[5], lists.held[0].struck[5], lists.held[0].own[9]), (0, 0, 0));
}

#[test]
fn good_order() {
    let changes: [Change; 15] = [
        |lists| lists.count = 9,
        |lists| lists.count = 7,
        |lists| lists.count = 1,
        |lists| lists.count = 23,
        |lists| lists.count = usize::MAX,
        |lists| lists.vars[0] = 1,
        |lists| lists.vars[2] = 65,
        |lists| lists.vars[3] = 0,
        |lists| lists.lows[7] = 7,
        |lists| lists.highs[7] = lists.lows[7],
        |lists| lists.vars[8] = 1,
        |lists| lists.heads.fill(0),
        |lists| lists.links[21] = 2,
        |lists| lists.heads[0] = 21,
        |lists| lists.push(lists.vars[2], lists.lows[2], lists.highs[2]),
    ];
    for change in changes {
        refused(26, change);
    }
}

#[test]
fn sizes() {
    let changes: [Change; 16] = [
        |lists| lists.vars.truncate(21),
        |lists| lists.lows.truncate(21),
        |lists| lists.highs.push(0),
        |lists| lists.heads.truncate(43),
        |lists| lists.heads.push(0),
        |lists| lists.links.truncate(21),
        |lists| lists.held[0].own.truncate(21),
        |lists| lists.held[0].own.push(0),
        |lists| lists.held[0].members.truncate(2_047),
        |lists| lists.held[0].members.push(0),
        |lists| lists.held[0].struck.truncate(2_047),
        |lists| lists.held[0].struck.push(0),
        |lists| lists.scratch.truncate(4_095),
        |lists| lists.scratch.clear(),
        // 7 comes before 26.
        |lists| (lists.count, lists.held[0].kept.peak) = (lists.scratch.drain(..1).count(), 11),
        |lists| (lists.vars, lists.held[0].kept.variables) = (Vec::new(), 65),
    ];
    for change in changes {
        refused(7, change);
    }
    judged([35, 9, 1, 0, 8], |lists| {
        lists.held[0].members.push(0);
        lists.held[0].struck.push(0);
        lists.scratch.push(7);
    });
}

/// 7 and 32 of the opening leave every list and both structs as they were, whatever they hold.
#[test]
fn refused_openings() {
    let opens = |number: u8, shares: [usize; 2], change: Change| {
        let mut lists = Lists::dirty(22);
        change(&mut lists);
        let before = lists.clone();
        assert_eq!(lists.open(shares).number, number);
        assert!(number == 35 || lists == before);
    };
    opens(35, [10, 10], |_| ());
    opens(32, [10, 11], |_| ());
    opens(32, [usize::MAX, 3], |_| ());
    opens(7, [10, 11], |lists| lists.held[1].own.truncate(21));
    opens(7, [0, 0], |lists| lists.held[0].own.push(0));
    opens(7, [0, 0], |lists| lists.held[1].members.truncate(2_047));
    opens(7, [0, 0], |lists| lists.held[1].struck.push(0));
    opens(7, [0, 0], |lists| lists.scratch.truncate(4_095));
    opens(7, [0, 0], |lists| lists.heads.truncate(43));
    opens(7, [0, 0], |lists| lists.links.push(0));
    opens(7, [0, 0], |lists| lists.lows.truncate(21));
}

/// An opening that is not refused leaves zeros, the count 2 and the shares.
#[test]
fn opened() {
    let lists = Lists::opened(22, [12, 8]);
    let zero = |list: &[u16]| list.iter().all(|place| *place == 0);
    assert!([&lists.lows, &lists.highs, &lists.heads, &lists.links, &lists.scratch].iter().all(|list| zero(list)));
    assert!(lists.vars.iter().all(|place| *place == 0) && lists.count == 2);
    for (held, share) in lists.held.iter().zip([12, 8]) {
        assert!(zero(&held.own) && zero(&held.members) && held.struck.iter().all(|mark| *mark == 0));
        let wanted = cablesalak_books::raw::Kept { share, ..Default::default() };
        assert_eq!(held.kept, wanted);
    }
}

/// A book that is bound repeats what is kept, and every byte above 1 says that it is bound.
#[test]
fn bound() {
    for stage in [2, 3, 255] {
        let mut lists = lists();
        let kept = &mut lists.held[0].kept;
        (kept.stage, kept.number, kept.place, kept.rounds) = (stage, 19, 77, 5);
        let before = lists.clone();
        assert_eq!(lists.says(0, TWO), [19, 77, 0, 5, 6]);
        assert_eq!(lists, before);
        lists.held[0].kept.peak = 11;
        assert_eq!(lists.says(0, TWO), [26, 0, 0, 0, 0]);
    }
}

/// Lent another struct, a call's 0 says nothing of the formula: here no line 0 was accepted.
#[test]
fn zero_of_another_state() {
    let mut lists = lists();
    lists.held[0].kept.refuted = 1;
    assert_eq!(lists.says(0, END), [0, 0, 0, 0, 6]);
}
