//! A row of a check's table by every call that can be asked: over dirty lists, over a list of rows, over a workspace that other
//! rows have used.

use crate::lent::Lists;
use cablesalak::{check, check_text, Mode, NodeNo, Text, Variables, Verdict, Workspace};

/// Places of the table, formula, proof; number, place, lines, rounds, count, peak; the clauses that are left as members.
pub type Row<'a> = (usize, &'a [u8], &'a [u8], (u8, usize, usize, u64, usize, usize), usize);

/// What the calls say of the row, and that the lists hold what goes with it. The marks are a digit for each member.
pub fn run(mode: Mode, row: &Row, marks: &str, workspace: &mut Workspace) -> Verdict {
    let (size, formula, proof, said, clauses) = *row;
    let mut lists = Lists::of_size(size);
    let verdict = lists.check_in(mode, formula, proof);
    let number = verdict.number;
    let Verdict { place, lines, rounds, count, peak, .. } = verdict;
    assert_eq!((number.code(), place, lines, rounds, count, peak), said, "{number}");
    assert_eq!(verdict.refuted(), number.code() == 0);
    assert_eq!(lists.count, verdict.count);
    let members = clauses + verdict.lines;
    assert!(lists.zero_above(members) && lists.indexed(), "{number}");
    assert_eq!(lists.marks(members), marks, "{number}");
    if verdict.text == Some(Text::Formula) {
        assert!(lists.count == 2 && lists.zero_above(0), "{number}");
    }
    // What is left is a table in good order, and every member is a node of it.
    assert_eq!(lists.table().evaluate(NodeNo::ONE, Variables::NONE), Ok(true));
    assert!(lists.members.iter().all(|member| usize::from(*member) < lists.count), "{number}");
    by_other_calls(mode, row, &verdict, &lists);
    if size == workspace.table().size() {
        in_workspace(mode, row, &verdict, &lists, workspace);
    }
    verdict
}

/// The calls without a mode, and the one over a list of rows: the same verdict and the same in every place.
fn by_other_calls(mode: Mode, row: &Row, verdict: &Verdict, lists: &Lists) {
    let (size, formula, proof, ..) = *row;
    let mut others = vec![Lists::of_size(size)];
    let said = others[0].check_nodes(mode, formula, proof);
    assert_eq!(said, *verdict, "over a list of rows");
    for (form, call) in [(Mode::RECORDS, Lists::check as fn(&mut _, &_, &_) -> _), (Mode::TEXT, Lists::check_text)] {
        if mode == form {
            let mut other = Lists::of_size(size);
            assert_eq!(call(&mut other, formula, proof), *verdict);
            others.push(other);
        }
    }
    assert!(others.iter().all(|other| other == lists));
}

fn in_workspace(mode: Mode, row: &Row, verdict: &Verdict, lists: &Lists, workspace: &mut Workspace) {
    let (_, formula, proof, said, clauses) = *row;
    let report = workspace.report(mode, Some(formula), Some(proof));
    assert_eq!((report.line(), report.status()), (format!("{verdict}\n").as_str(), u8::from(said.0 != 0)));
    assert_eq!((workspace.members().len(), workspace.table().count()), (0, 2));
    assert_eq!(workspace.table().evaluate(NodeNo::ONE, Variables::NONE), Ok(true));
    for (form, call) in [(Mode::RECORDS, check as fn(&mut _, &_, &_) -> _), (Mode::TEXT, check_text)] {
        if mode == form {
            assert_eq!(call(workspace, formula, proof), *verdict);
        }
    }
    assert_eq!(workspace.check(mode, formula, proof), *verdict);
    same(lists, clauses + verdict.lines, workspace);
}

/// The workspace tells of its members what the lists hold.
fn same(lists: &Lists, members: usize, workspace: &Workspace) {
    assert_eq!(workspace.table().count(), lists.count);
    assert!(workspace.members().eq(lists.members[..members].iter().copied().map(NodeNo)));
    assert_eq!((workspace.member(members), workspace.is_struck(members)), (None, None));
    assert!((0..members).all(|place| workspace.is_struck(place) == Some(lists.struck[place] == 1)));
    let live = (0..members).filter(|place| lists.struck[*place] == 0);
    assert!(workspace.live_members().eq(live.map(|place| (place, NodeNo(lists.members[place])))));
}
