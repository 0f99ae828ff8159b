//! The line protocol: a command line in, an answer line out.

use crate::books::{Books, Opening, Said};
use crate::check::{self, check, Form, Lent, Task, Verdict};
use crate::convert;
use crate::dimacs::Refusal;
use crate::judge::{Member, Profile};
use crate::operate::Diagrams;
use crate::single::{self, LentIndex};
use crate::small;
use crate::table::{bit, Literals, VARIABLES};
use crate::why::{self, Cause, Why};
use crate::words::{decimal, hex, push_hex, push_list, push_number, push_numbers};

/// The largest output list that a conversion is asked to fill: an answer shows the whole of it.
const LARGEST_OUTPUT: u64 = 1 << 24;

/// What stays from one command to the next.
pub struct Session {
    pub diagrams: Diagrams,
    books: Option<Books>,
}

impl Session {
    pub fn new() -> Session {
        Session { diagrams: Diagrams::new(), books: None }
    }
}

/// Writes the answer to a command, without the line's end.
pub fn answer(session: &mut Session, line: &[u8], out: &mut Vec<u8>) {
    let before = out.len();
    if command(session, line, out).is_none() {
        out.truncate(before);
        out.extend(b"error: not a command");
    }
}

fn command(session: &mut Session, line: &[u8], out: &mut Vec<u8>) -> Option<()> {
    let mut words = line.split(|&b| b == b' ');
    let name = words.next()?;
    let d = &mut session.diagrams;
    match name {
        b"open" => open(&mut session.books, words, out),
        b"book" => book(&mut session.books, words, out),
        b"dump" => dump(session.books.as_ref(), words, out),
        b"cons" => profiled(d, Profile::Consequence, words.next()?, words, out),
        b"check" | b"drat" | b"dratb" | b"why" => profiled(d, Profile::Redundance, name, words, out),
        b"small" => small_command(words, out),
        b"tobin" => conversion(convert::to_binary, words, out),
        b"totext" => conversion(convert::to_text, words, out),
        _ => single::command(d, name, words, out),
    }
}

/// The words MEMBERS SCRATCH FORMULA PROOF.
fn small_command<'a>(mut words: impl Iterator<Item = &'a [u8]>, out: &mut Vec<u8>) -> Option<()> {
    let (members, scratch) = (decimal(words.next()?)?, decimal(words.next()?)?);
    let (formula, proof) = (hex(words.next()?)?, hex(words.next()?)?);
    if words.next().is_some() {
        return None;
    }
    let verdict = match check::lists_are_right(members, scratch) {
        true => small::check(&formula, &proof),
        false => small::Verdict { number: 7, place: 0, lines: 0, rounds: 0 },
    };
    push_numbers(out, &[verdict.number.into(), verdict.place as u64, verdict.lines as u64, verdict.rounds]);
    Some(())
}

/// The words SIZE MEMA MEMB SCRATCH SHAREA SHAREB. A refused opening leaves what was there.
fn open<'a>(books: &mut Option<Books>, mut words: impl Iterator<Item = &'a [u8]>, out: &mut Vec<u8>) -> Option<()> {
    let mut number = || decimal(words.next()?);
    let table = LentIndex::default().sizes(number()?);
    let (members, scratch, shares) = ([number()?, number()?], number()?, [number()?, number()?]);
    if words.next().is_some() {
        return None;
    }
    match Books::open(&Opening { table, members, scratch, shares }) {
        Ok(opened) => {
            *books = Some(opened);
            push_said(out, Books::opened());
        }
        Err(said) => push_said(out, said),
    }
    Some(())
}

/// The words A or B and bytes; 7 where nothing is opened.
fn book<'a>(books: &mut Option<Books>, mut words: impl Iterator<Item = &'a [u8]>, out: &mut Vec<u8>) -> Option<()> {
    let which = match words.next()? {
        b"A" => 0,
        b"B" => 1,
        _ => return None,
    };
    let bytes = hex(words.next()?)?;
    if words.next().is_some() {
        return None;
    }
    push_said(out, books.as_mut().map_or(Said::early(7), |books| books.call(which, &bytes)));
    Some(())
}

fn push_said(out: &mut Vec<u8>, said: Said) {
    let (lines, peak) = (said.lines as u64, said.peak as u64);
    push_numbers(out, &[said.number.into(), said.place as u64, lines, said.rounds, peak]);
}

/// The shared table and what each book holds of it; an empty one where nothing is opened.
fn dump<'a>(books: Option<&Books>, mut words: impl Iterator<Item = &'a [u8]>, out: &mut Vec<u8>) -> Option<()> {
    if words.next().is_some() {
        return None;
    }
    let Some(books) = books else {
        out.extend(b"2 | - | - | - | - | -");
        return Some(());
    };
    push_number(out, books.table().count() as u64);
    out.extend(b" | ");
    single::push_table(out, books.table());
    for which in [0, 1] {
        out.extend(b" | ");
        push_members(out, &books.members(which));
    }
    Some(())
}

type Convert = fn(&[u8]) -> Result<Vec<u8>, Refusal>;

/// The words OUTSIZE and bytes.
fn conversion<'a>(convert: Convert, mut words: impl Iterator<Item = &'a [u8]>, out: &mut Vec<u8>) -> Option<()> {
    let size = decimal(words.next()?).filter(|&size| size <= LARGEST_OUTPUT)?;
    let bytes = hex(words.next()?)?;
    if words.next().is_some() {
        return None;
    }
    let converted = convert::into_output(convert(&bytes), size as usize);
    push_numbers(out, &[converted.number.into(), converted.place as u64, converted.length as u64]);
    out.extend(b" | ");
    push_hex(out, &converted.output);
    Some(())
}

/// A command that is given in each profile.
fn profiled<'a>(
    d: &mut Diagrams,
    profile: Profile,
    name: &[u8],
    mut words: impl Iterator<Item = &'a [u8]>,
    out: &mut Vec<u8>,
) -> Option<()> {
    let form = match name {
        b"check" => Form::Records,
        b"drat" => Form::Text,
        b"dratb" => Form::Binary,
        b"why" => form(words.next()?)?,
        _ => return None,
    };
    let (lent, task) = task(profile, form, words)?;
    let verdict = check(d, &lent, &task);
    if name == b"why" {
        push_why(&why::why(&task, &verdict), out);
    } else {
        push_verdict(d, &verdict, out);
    }
    Some(())
}

fn form(word: &[u8]) -> Option<Form> {
    match word {
        b"r" => Some(Form::Records),
        b"t" => Some(Form::Text),
        b"b" => Some(Form::Binary),
        _ => None,
    }
}

/// The words SIZE MEMBERS SCRATCH FORMULA PROOF and those that lend an index.
fn task<'a>(profile: Profile, form: Form, mut words: impl Iterator<Item = &'a [u8]>) -> Option<(Lent, Task)> {
    let mut size = || decimal(words.next()?);
    let (places, members, scratch) = (size()?, size()?, size()?);
    let (formula, proof) = (hex(words.next()?)?, hex(words.next()?)?);
    let index = single::lent_index(words)?;
    // The check empties the index, so only its sizes can be named.
    if !index.changes.is_empty() {
        return None;
    }
    Some((Lent { table: index.sizes(places), members, scratch }, Task { form, profile, formula, proof }))
}

fn push_verdict(d: &Diagrams, verdict: &Verdict, out: &mut Vec<u8>) {
    let (count, peak) = (d.table.count() as u64, verdict.peak as u64);
    let (number, place, lines) = (verdict.number.into(), verdict.place as u64, verdict.lines as u64);
    push_numbers(out, &[number, place, lines, verdict.rounds, count, peak]);
    out.extend(b" | ");
    single::push_table(out, &d.table);
    out.extend(b" | ");
    push_members(out, &verdict.members);
}

fn push_why(why: &Why, out: &mut Vec<u8>) {
    push_number(out, why.number.into());
    out.extend(if why.in_proof { b" | p " } else { b" | f " });
    push_numbers(out, &[why.start as u64, why.length as u64]);
    out.extend(b" | ");
    match why.cause {
        Cause::None => out.push(b'-'),
        Cause::Variables(own, child) => {
            push_list(out, b',', &[*own, *child], |out, &level| push_number(out, level.into()))
        }
        Cause::Assignment(word) => push_number(out, *word),
        Cause::Unshown { fixed, member } => {
            push_list(out, b';', fixed, |out, &literals| push_literals(out, literals));
            if let Some(member) = member {
                out.extend(b" m");
                push_number(out, *member as u64);
            }
        }
    }
}

/// In order of variable, a minus before the false ones.
fn push_literals(out: &mut Vec<u8>, literals: Literals) {
    let variables: Vec<u32> = (1..=VARIABLES).filter(|&v| literals.variables() & bit(v) != 0).collect();
    push_list(out, b',', &variables, |out, &variable| {
        if literals.no & bit(variable) != 0 {
            out.push(b'-');
        }
        push_number(out, variable.into());
    });
}

/// The nodes, and the marks.
fn push_members(out: &mut Vec<u8>, members: &[Member]) {
    push_list(out, b',', members, |out, member| push_number(out, member.node.0.into()));
    out.extend(b" | ");
    if members.is_empty() {
        out.push(b'-');
    }
    out.extend(members.iter().map(|member| b'0' + member.struck as u8));
}
