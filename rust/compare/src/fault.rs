//! Faults of a proof, one of them at a time.

use crate::check::witness;
use crate::diagram::Literals;
use crate::families::Problem;
use crate::paths::{self, with_paths};
use crate::proof::{strewn, Writer};
use crate::random::Random;
use crate::tally::{self, Tally};

/// Records with a fault, for a place where so many lines of the problem's proof are accepted.
pub fn write(random: &mut Random, writer: &mut Writer, problem: &Problem, lines: usize) {
    let variables = problem.formula.variables;
    let some = random.between(1, variables.max(1)) as u8;
    match random.below(27) {
        0 => writer.bytes.push(random.pick(&[0, 1, 0x43, 0x4a, 0x4c, 0x4d, 0x4f, 0x53, 0x55, 0x56, 0x57, 0x59, 0xff])),
        1 => cut_short(random, writer, some),
        2 => after_end(random, writer),
        3 => wrong_variable(random, writer, variables),
        4 => no_entry(random, writer, some),
        5 | 13 => wrong_order(random, writer, variables),
        6 => twice(random, writer, variables, some),
        7 => left_over(random, writer, some),
        8 => always_true(random, writer, some),
        9 => not_made_true(random, writer, problem),
        10 => writer.end(),
        11 | 14 | 15 => not_shown(random, writer, problem),
        12 => zero_lines(random, writer),
        16..=19 => strikings(random, writer, problem, problem.formula.clauses.len() + lines),
        20..=23 => sets(random, writer, variables),
        _ => path_lines(random, writer, problem),
    }
}

/// A kind of line: most often RUP.
fn line_kind(random: &mut Random) -> u8 {
    random.pick(&[0x52, 0x52, 0x50, paths::KIND])
}

/// 10: a record cut short. Nothing may follow it, so what follows makes of it another record or another fault.
fn cut_short(random: &mut Random, writer: &mut Writer, some: u8) {
    match random.below(8) {
        0 => drop(writer.node(some, 0, 1)),
        1 => writer.line(0x52, 0),
        2 => writer.line(0x50, 0),
        7 => writer.line(paths::KIND, 0),
        3 => writer.strike(0),
        4 | 5 => drop(writer.set(random.pick(&[0x58, 0x4b]), random.pick(&[0, 1, u64::MAX]), random.below(3) as u8)),
        _ => writer.witness(Literals { positive: 1 << (some - 1), negative: 0 }),
    }
    writer.bytes.truncate(random.between(1, writer.bytes.len() - 1));
}

/// 11 and 16 before 20: what follows the end record.
fn after_end(random: &mut Random, writer: &mut Writer) {
    if random.percent(30) {
        writer.witness(Literals { positive: 1, negative: 0 });
    }
    writer.end();
    for _ in 0..random.between(1, 3) {
        writer.bytes.push(random.pick(&[0x45, 0, 0x4e, 0xff]));
    }
}

fn wrong_variable(random: &mut Random, writer: &mut Writer, variables: usize) {
    let variable = random.pick(&[0, 0, variables + 1, variables + 2, 65, 200, 255]) as u8;
    match random.below(3) {
        0 => drop(writer.node(variable, random.below(3) as u16, 1)),
        kind => writer.bytes.extend([[0x54, 0x46][kind - 1], variable]),
    }
}

fn no_entry(random: &mut Random, writer: &mut Writer, some: u8) {
    for _ in 0..random.below(3) {
        writer.node(some, 0, 1);
    }
    let entry = random.pick(&[2, 3, 4, 5, 256, 4097, 4098, 65_535]);
    match random.below(4) {
        0 => drop(writer.node(some, entry, 1)),
        1 => drop(writer.node(some, 0, entry)),
        _ => writer.line(line_kind(random), entry),
    }
}

/// 14: a variable that is not before its child's, or is, for the child's node counts and not its record.
fn wrong_order(random: &mut Random, writer: &mut Writer, variables: usize) {
    let below = random.between(1, variables.max(1)) as u8;
    let above = if random.percent(70) {
        random.between(below.into(), variables.max(1))
    } else {
        random.between(1, below.into())
    } as u8;
    let child = if random.percent(20) { writer.node(below, 1, 1) } else { writer.node(below, 0, 1) };
    match random.below(3) {
        0 => writer.node(above, child, 1),
        1 => writer.node(above, 0, child),
        _ => writer.node(above, child, child),
    };
    writer.line(0x52, child + 1);
}

fn twice(random: &mut Random, writer: &mut Writer, variables: usize, some: u8) {
    if variables > 1 && random.percent(50) {
        let other = random.between(1, variables) as u8;
        writer.bytes.extend([0x54, other]);
    }
    writer.bytes.extend([random.pick(&[0x54, 0x46]), some]);
    if random.percent(30) {
        writer.node(some, 0, 1);
    }
    writer.bytes.extend([random.pick(&[0x54, 0x46]), some]);
}

fn left_over(random: &mut Random, writer: &mut Writer, some: u8) {
    writer.bytes.extend([random.pick(&[0x54, 0x46]), some]);
    match random.below(10) {
        0..=3 => return writer.end(),
        4..=5 => return writer.strike(random.below(4)),
        _ => {}
    }
    let root = if random.percent(50) { writer.node(some, 0, 1) } else { random.below(2) as u16 };
    writer.line(random.pick(&[0x52, 0x52, paths::KIND]), root);
}

fn always_true(random: &mut Random, writer: &mut Writer, some: u8) {
    let root = if random.percent(50) { writer.node(some, 1, 1) } else { 1 };
    if random.percent(30) {
        writer.witness(Literals { positive: 1 << (some - 1), negative: 0 });
        return writer.line(0x50, root);
    }
    writer.line(random.pick(&[0x50, 0x52, paths::KIND]), root);
}

/// 18, mostly: a random diagram under a random witness.
fn not_made_true(random: &mut Random, writer: &mut Writer, problem: &Problem) {
    let mut store = problem.builder.store.clone();
    let g = strewn(random, &mut store, problem.formula.variables);
    let root = writer.entry(&store, g);
    writer.witness(witness(random, problem.formula.variables));
    writer.line(0x50, root);
}

/// 19, mostly: a random diagram as a line; in a PR line with a witness that makes it 1.
fn not_shown(random: &mut Random, writer: &mut Writer, problem: &Problem) {
    let mut store = problem.builder.store.clone();
    for _ in 0..5 {
        let g = strewn(random, &mut store, problem.formula.variables);
        let literals = witness(random, problem.formula.variables);
        let pr = store.restrict(g, literals) == 1;
        if g != 1 && (pr || random.percent(50)) {
            let root = writer.entry(&store, g);
            if pr {
                writer.witness(literals);
            }
            let other = random.pick(&[0x52, 0x52, paths::KIND]);
            return writer.line(if pr { 0x50 } else { other }, root);
        }
    }
    writer.line(0x52, 0);
}

/// Lines 0 of both kinds: 18, 19, or accepted.
fn zero_lines(random: &mut Random, writer: &mut Writer) {
    writer.line(random.pick(&[0x52, 0x50, paths::KIND]), 0);
    writer.line(random.pick(&[0x52, paths::KIND]), 0);
}

/// 28, or a striking that is fine: twice, beyond the members, within a line, all members, the last one.
fn strikings(random: &mut Random, writer: &mut Writer, problem: &Problem, members: usize) {
    let some = random.below(members.max(1));
    match random.below(8) {
        0 => {
            writer.strike(some);
            for _ in 0..random.below(2) {
                writer.line(0x52, 0);
            }
            writer.strike(some);
        }
        1 => writer.strike(members + random.pick(&[0, 0, 1, 2, 256])),
        2 => writer.strike(random.pick(&[1024, 2047, 2048, 4096, 65_535])),
        3 => {
            not_shown(random, writer, problem);
            writer.strike_within(random, some);
        }
        4 => all_struck(random, writer, problem, members),
        5 => writer.strike(members.saturating_sub(1)),
        _ => writer.strike(some),
    }
}

/// Every member struck: no line by RUP, and a PR line for the asking.
fn all_struck(random: &mut Random, writer: &mut Writer, problem: &Problem, members: usize) {
    let mut order: Vec<usize> = (0..members).collect();
    if random.percent(50) {
        random.shuffle(&mut order);
    }
    if random.percent(10) {
        order.pop();
    }
    for member in order {
        writer.strike(member);
    }
    not_shown(random, writer, problem);
}

/// Records of sets: 12, 29, both, 14, 17 or 19, or nothing wrong.
fn sets(random: &mut Random, writer: &mut Writer, variables: usize) {
    let (set, tally) = tally::asked(random, variables);
    // A bit beyond the header, often the first.
    let last = random.pick(&[variables, 63]).max(variables);
    let beyond = if variables < 64 { 1 << random.between(variables, last) } else { 0 };
    let (kind, byte) = tally.record();
    match random.below(8) {
        // 12; of a parity byte above 1 too, which comes later.
        0 => drop(writer.set(kind, random.pick(&[set, 0]) | beyond, byte)),
        1 => drop(writer.set(0x58, set | beyond, random.pick(&[2, 255]))),
        2 => drop(writer.set(0x58, set, random.pick(&[2, 3, 4, 0x45, 0x80, 0xfe, 0xff]))),
        3 => over_set(random, writer, variables),
        4 => {
            writer.tally(set, tally);
            writer.witness(Literals { positive: u64::from(variables > 0), negative: 0 });
            let root = writer.tally(set, Tally::AtLeast(1));
            writer.line(0x50, root);
        }
        _ => {
            tally::strew(random, writer, variables);
            let root = writer.tally(set, tally);
            writer.line(line_kind(random), root);
        }
    }
}

/// A node over an entry of a set: 14 where its variable is not smaller than all of the set's, unless the entry is a constant.
fn over_set(random: &mut Random, writer: &mut Writer, variables: usize) {
    let (set, tally) = tally::asked(random, variables);
    let child = writer.tally(set, tally);
    let first = set.trailing_zeros() as usize + 1;
    let other_variable = random.between(1, variables.max(1));
    let variable = random.pick(&[first, first - 1, other_variable]).clamp(1, 64) as u8;
    let other = random.below(3) as u16;
    let root =
        if random.percent(50) { writer.node(variable, child, other) } else { writer.node(variable, other, child) };
    writer.line(0x52, root);
}

/// Path lines: a random diagram, which some path refuses with 19; one that the members imply; more paths than there may be, be it
/// of an entry that does not exist, of the constant 1 or behind a witness.
fn path_lines(random: &mut Random, writer: &mut Writer, problem: &Problem) {
    let variables = problem.formula.variables;
    let mut builder = problem.builder.clone();
    match random.below(5) {
        0 => {
            let g = strewn(random, &mut builder.store, variables);
            let root = writer.entry(&builder.store, g);
            writer.line(paths::KIND, root);
        }
        1 | 2 => {
            let (whole, any) = (builder.whole(), strewn(random, &mut builder.store, variables));
            let g = builder.store.or(whole, any);
            let root = writer.entry(&builder.store, g);
            writer.line(paths::KIND, root);
        }
        3 if variables == 64 => {
            let count = random.pick(&[4_096, 4_097, 5_000]);
            let g = with_paths(&mut builder.store, random.between(1, 30) as u8, count, true);
            let root = writer.entry(&builder.store, g);
            if random.percent(20) {
                writer.witness(Literals { positive: 1, negative: 0 });
            }
            let other = random.pick(&[0, 1, root + 1]);
            writer.line(paths::KIND, if random.percent(80) { root } else { other });
        }
        _ => {
            // A parity of 14 or more has over 4,096 paths.
            let size = random.pick(&[13, 14, 20]).min(variables);
            let set = tally::set(random, variables, size);
            let root = writer.tally(set, Tally::Parity(random.percent(50)));
            writer.line(paths::KIND, root);
        }
    }
}
