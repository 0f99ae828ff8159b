//! The archives' calls, declared once, and a safe function over slices for each. All of the crate's `unsafe` is here.
//!
//! `include/cablesalak.h` says what each call gives and leaves. None has a `requires`: whatever lengths, counts and numbers it is
//! passed, it answers by its contract (`crates/export/src/lib.rt`), so that the functions here are safe. Nothing checks the
//! declarations against the archives; the tests make every call, and an archive of another layout does not link.

#[cfg(feature = "nodes")]
use crate::Node;
pub use answers::{AtLeast, Checked, Converted, Evaluated, Single, Told, Why, LINE};

mod answers;
mod archive;

/// The lists of a table, to read: three columns and the index.
#[derive(Clone, Copy, Debug)]
pub struct Columns<'a> {
    pub vars: &'a [u8],
    pub lows: &'a [u16],
    pub highs: &'a [u16],
    /// Twice as many as places: for each chain its node of highest number.
    pub heads: &'a [u16],
    /// As many as places: for each node the next lower one of its chain.
    pub links: &'a [u16],
}

/// The lists of a table, to write to.
#[derive(Debug)]
pub struct ColumnsMut<'a> {
    pub vars: &'a mut [u8],
    pub lows: &'a mut [u16],
    pub highs: &'a mut [u16],
    /// Twice as many as places: for each chain its node of highest number.
    pub heads: &'a mut [u16],
    /// As many as places: for each node the next lower one of its chain.
    pub links: &'a mut [u16],
}

/// What a check needs besides the table.
#[derive(Debug)]
pub struct ListsMut<'a> {
    /// The member list: 2,048 places or more.
    pub members: &'a mut [u16],
    /// A mark for each place of the member list.
    pub struck: &'a mut [u8],
    /// The scratch list: 4,096 places or more.
    pub scratch: &'a mut [u16],
}

/// The form of a proof, as the archive numbers it, and whether the check is in the consequence profile.
#[derive(Clone, Copy, Debug, PartialEq, Eq)]
pub struct RawMode {
    /// 0 for records, 1 for a DRAT text, any other for binary DRAT.
    pub form: u8,
    pub consequence: bool,
}

/// Refers to the symbol whose name has the layout's version.
#[inline]
fn of_this_layout() {
    std::hint::black_box(archive::cablesalak_layout_2 as unsafe extern "C" fn() -> u32);
}

/// Calls a function of an archive. `ref` and `mut` pass a list as its address and its length, `columns` the five lists of a table;
/// what has no word before it is passed as it is.
///
/// SAFETY: a slice is valid for its length, and one that is `&mut` overlaps no other; the calls ask for nothing more.
macro_rules! call {
    (@ $name:ident [$($done:tt)*]) => {
        unsafe { archive::$name($($done)*) }
    };
    (@ $name:ident [$($done:tt)*] columns mut $table:ident, $($rest:tt)*) => {
        call!(@ $name [$($done)*] mut $table.vars, mut $table.lows, mut $table.highs, mut $table.heads, mut $table.links, $($rest)*)
    };
    (@ $name:ident [$($done:tt)*] columns ref $table:ident, $($rest:tt)*) => {
        call!(@ $name [$($done)*] ref $table.vars, ref $table.lows, ref $table.highs, ref $table.heads, ref $table.links, $($rest)*)
    };
    (@ $name:ident [$($done:tt)*] mut $list:expr, $($rest:tt)*) => {
        call!(@ $name [$($done)* $list.as_mut_ptr(), $list.len(),] $($rest)*)
    };
    (@ $name:ident [$($done:tt)*] ref $list:expr, $($rest:tt)*) => {
        call!(@ $name [$($done)* $list.as_ptr(), $list.len(),] $($rest)*)
    };
    (@ $name:ident [$($done:tt)*] $plain:expr, $($rest:tt)*) => {
        call!(@ $name [$($done)* $plain,] $($rest)*)
    };
    ($name:ident, $($arguments:tt)*) => {{
        of_this_layout();
        call!(@ $name [] $($arguments)*)
    }};
}

/// Whether the node is 1 under the word's assignment; or 7, 26, 13.
pub fn evaluate(table: Columns<'_>, count: usize, node: u16, word: u64) -> Evaluated {
    call!(cablesalak_evaluate, columns ref table, count, node, word,)
}

/// The conjunction of f and g; or 7, 26, 13, 23.
pub fn conjunction(table: &mut ColumnsMut<'_>, count: usize, f: u16, g: u16) -> Single {
    call!(cablesalak_conjunction, columns mut table, count, f, g,)
}

/// The negation of f; or 7, 26, 13, 23.
pub fn negation(table: &mut ColumnsMut<'_>, count: usize, f: u16) -> Single {
    call!(cablesalak_negation, columns mut table, count, f,)
}

/// f cofactored by the diagram g; or 7, 26, 13, 27, 23.
pub fn cofactor(table: &mut ColumnsMut<'_>, count: usize, f: u16, g: u16) -> Single {
    call!(cablesalak_cofactor, columns mut table, count, f, g,)
}

/// f with the variables of `positive` made true and those of `negative` false; or 7, 26, 13, 15, 23.
pub fn cofactor_literals(table: &mut ColumnsMut<'_>, count: usize, f: u16, positive: u64, negative: u64) -> Single {
    call!(cablesalak_cofactor_literals, columns mut table, count, f, positive, negative,)
}

/// "At least k of the set's variables", with the number of assignments of theirs that it excludes where they are at most 32; or 7,
/// 26, 23.
pub fn at_least(table: &mut ColumnsMut<'_>, count: usize, set: u64, k: u8) -> AtLeast {
    call!(cablesalak_at_least, columns mut table, count, set, k,)
}

/// The check of a formula and a proof in records. Number 0: no assignment satisfies the formula.
pub fn check(
    table: &mut ColumnsMut<'_>,
    count: usize,
    lists: &mut ListsMut<'_>,
    formula: &[u8],
    proof: &[u8],
) -> Checked {
    let ListsMut { members, struck, scratch } = lists;
    call!(cablesalak_check, columns mut table, count, mut members, mut struck, mut scratch, ref formula, ref proof,)
}

/// The check of a formula and a proof that is a DRAT text. Number 0: no assignment satisfies the formula.
pub fn check_text(
    table: &mut ColumnsMut<'_>,
    count: usize,
    lists: &mut ListsMut<'_>,
    formula: &[u8],
    proof: &[u8],
) -> Checked {
    let ListsMut { members, struck, scratch } = lists;
    call!(cablesalak_check_text, columns mut table, count, mut members, mut struck, mut scratch, ref formula, ref proof,)
}

/// The check of a formula and a proof in a mode. Number 0: no assignment satisfies the formula.
pub fn check_in(
    mode: RawMode,
    table: &mut ColumnsMut<'_>,
    count: usize,
    lists: &mut ListsMut<'_>,
    formula: &[u8],
    proof: &[u8],
) -> Checked {
    let RawMode { form, consequence } = mode;
    let ListsMut { members, struck, scratch } = lists;
    call!(
        cablesalak_check_in, columns mut table, count, mut members, mut struck, mut scratch, ref formula, ref proof, form, consequence,
    )
}

/// Why the check of a formula and a proof in a mode is refused. `fixed` has 128 words or more; with 19 they hold the literals that the last
/// propagation fixes, two words a round, those made true and those made false. The other lists end as after the check.
pub fn why(
    mode: RawMode,
    table: &mut ColumnsMut<'_>,
    count: usize,
    lists: &mut ListsMut<'_>,
    fixed: &mut [u64],
    formula: &[u8],
    proof: &[u8],
) -> Why {
    let RawMode { form, consequence } = mode;
    let ListsMut { members, struck, scratch } = lists;
    call!(
        cablesalak_why, columns mut table, count, mut members, mut struck, mut scratch, mut fixed, ref formula, ref proof, form,
        consequence,
    )
}

/// A DRAT text in binary, put at the start of `out`, which is zero after it; or 3, 4, 6 or 7, and `out` is all zero.
pub fn to_binary(text: &[u8], out: &mut [u8]) -> Converted {
    call!(cablesalak_to_binary, ref text, mut out,)
}

/// A binary DRAT proof as text, likewise; or 4, 6, 9, 31 or 7.
pub fn to_text(binary: &[u8], out: &mut [u8]) -> Converted {
    call!(cablesalak_to_text, ref binary, mut out,)
}

/// The program's line on two files, put at the start of `line`, and the status to end with: 0 for refuted alone, 2 where a file
/// was not taken, 1 for every other refusal. `None` is a file that could not be read.
pub fn report(formula: Option<&[u8]>, proof: Option<&[u8]>, line: &mut [u8; LINE]) -> Told {
    let (first, second) = (formula.is_some(), proof.is_some());
    let (formula, proof) = (formula.unwrap_or_default(), proof.unwrap_or_default());
    call!(cablesalak_report, first, ref formula, second, ref proof, line,)
}

/// The same of a proof in a mode, over lent lists.
pub fn report_in(
    mode: RawMode,
    table: &mut ColumnsMut<'_>,
    lists: &mut ListsMut<'_>,
    formula: Option<&[u8]>,
    proof: Option<&[u8]>,
    line: &mut [u8; LINE],
) -> Told {
    let RawMode { form, consequence } = mode;
    let ListsMut { members, struck, scratch } = lists;
    let (first, second) = (formula.is_some(), proof.is_some());
    let (formula, proof) = (formula.unwrap_or_default(), proof.unwrap_or_default());
    call!(
        cablesalak_report_in, columns mut table, mut members, mut struck, mut scratch,
        first, ref formula, second, ref proof, form, consequence, line,
    )
}

/// The lists of a table as one list of rows, to read.
#[cfg(feature = "nodes")]
#[derive(Clone, Copy, Debug)]
pub struct Rows<'a> {
    pub nodes: &'a [Node],
    pub heads: &'a [u16],
    pub links: &'a [u16],
}

/// The same, to write to.
#[cfg(feature = "nodes")]
#[derive(Debug)]
pub struct RowsMut<'a> {
    pub nodes: &'a mut [Node],
    pub heads: &'a mut [u16],
    pub links: &'a mut [u16],
}

/// [`evaluate`] over a list of rows.
#[cfg(feature = "nodes")]
pub fn evaluate_nodes(table: Rows<'_>, count: usize, node: u16, word: u64) -> Evaluated {
    call!(cablesalak_evaluate_nodes, ref table.nodes, ref table.heads, ref table.links, count, node, word,)
}

/// [`at_least`] over a list of rows.
#[cfg(feature = "nodes")]
pub fn at_least_nodes(table: &mut RowsMut<'_>, count: usize, set: u64, k: u8) -> AtLeast {
    call!(cablesalak_at_least_nodes, mut table.nodes, mut table.heads, mut table.links, count, set, k,)
}

/// [`check`] over a list of rows.
#[cfg(feature = "nodes")]
pub fn check_nodes(
    table: &mut RowsMut<'_>,
    count: usize,
    lists: &mut ListsMut<'_>,
    formula: &[u8],
    proof: &[u8],
) -> Checked {
    let (RowsMut { nodes, heads, links }, ListsMut { members, struck, scratch }) = (table, lists);
    call!(
        cablesalak_check_nodes,
        mut nodes,
        mut heads,
        mut links,
        count,
        mut members,
        mut struck,
        mut scratch,
        ref formula,
        ref proof,
    )
}

/// [`check_in`] over a list of rows.
#[cfg(feature = "nodes")]
pub fn check_nodes_in(
    mode: RawMode,
    table: &mut RowsMut<'_>,
    count: usize,
    lists: &mut ListsMut<'_>,
    formula: &[u8],
    proof: &[u8],
) -> Checked {
    let RawMode { form, consequence } = mode;
    let (RowsMut { nodes, heads, links }, ListsMut { members, struck, scratch }) = (table, lists);
    call!(
        cablesalak_check_nodes_in,
        mut nodes,
        mut heads,
        mut links,
        count,
        mut members,
        mut struck,
        mut scratch,
        ref formula,
        ref proof,
        form,
        consequence,
    )
}
