//! Why a check is refused. Every lent list must end as the check leaves it, and the literals stand in the list lent for them alone.

use crate::answer::{dirty_parts, expect, judge, mode, unchanged, Answered, Parts, LENT_COUNT};
use crate::command::Check;
use crate::lent::{Dirt, Lent};
use cablesalak::raw::{self, ListsMut, Why};

/// Lengths of the list for the literals: as short as it may be, and longer.
const LENGTHS: [usize; 3] = [128, 129, 200];

pub fn why(asked: &Check, dirt: &mut Dirt) -> Answered {
    let seed = dirt.next();
    let mut parts = dirty_parts(asked, seed);
    let length = LENGTHS[(seed % 3) as usize];
    let mut fixed = Lent::filled(length, 0xa5a5_a5a5_a5a5_a5a5, || dirt.next());
    let lent = fixed.places().to_vec();
    let said = explain(&mut parts, &mut fixed, asked);
    parts.guarded()?;
    expect(fixed.guarded(), "written outside the list of literals")?;
    let mut checked = dirty_parts(asked, seed);
    let verdict = judge(&mut checked, asked, &asked.proof, false);
    expect(parts.same(&checked), "the lent lists are not as after the check")?;
    expect(said.count == verdict.count, "the count is not the check's")?;
    expect(said.number == if verdict.number == 0 { 30 } else { verdict.number }, "the number is not the check's")?;
    match said.number {
        7 => expect(fixed.places() == lent, "7 changed the list of literals")?,
        _ => expect(fixed.zero_from(2 * said.rounds), "the list of literals is not zero behind the rounds")?,
    }
    too_short(asked, seed)?;
    let which = if said.in_proof { 'p' } else { 'f' };
    let (start, length) = (said.start, said.end - said.start);
    Ok(format!("{} | {which} {start} {length} | {}", said.number, cause(&said, fixed.places())?))
}

fn explain(parts: &mut Parts, fixed: &mut Lent<u64>, asked: &Check) -> Why {
    let Parts { table, members, struck, scratch } = parts;
    let lists = &mut ListsMut { members: members.lend(), struck: struck.lend(), scratch: scratch.lend() };
    let mode = mode(asked, &asked.proof);
    raw::why(mode, &mut table.lend(), LENT_COUNT, lists, fixed.lend(), &asked.formula, &asked.proof)
}

/// A list of fewer than 128 words is a lent part of wrong size: 7, and nothing is changed. Tried now and then.
fn too_short(asked: &Check, seed: u64) -> Result<(), String> {
    if !seed.is_multiple_of(5) {
        return Ok(());
    }
    let (mut parts, mut fixed) = (dirty_parts(asked, seed), Lent::filled((seed % 128) as usize, 0xa5, || seed));
    let said = explain(&mut parts, &mut fixed, asked);
    parts.guarded()?;
    expect(fixed.guarded(), "written outside the list of literals")?;
    let nothing = Why { number: 7, count: LENT_COUNT, in_proof: false, start: 0, end: 0, ..none() };
    expect(said == nothing, "a short list of literals is not refused with 7")?;
    unchanged(&parts, &dirty_parts(asked, seed))?;
    expect(fixed.places().iter().all(|word| *word == seed), "7 changed the list of literals")
}

fn none() -> Why {
    Why {
        number: 0,
        in_proof: false,
        start: 0,
        end: 0,
        variable: 0,
        child: 0,
        word: 0,
        rounds: 0,
        has_member: false,
        member: 0,
        count: 0,
    }
}

/// The cause as the protocol shows it; what another number's cause would tell is 0.
fn cause(said: &Why, fixed: &[u64]) -> Answered {
    let Why { number, in_proof, start, end, count, .. } = *said;
    let plain = Why { number, in_proof, start, end, count, ..none() };
    match number {
        14 => {
            expect(*said == Why { variable: said.variable, child: said.child, ..plain }, "14 tells of another cause")?;
            Ok(format!("{},{}", said.variable, said.child))
        }
        18 => {
            expect(*said == Why { word: said.word, ..plain }, "18 tells of another cause")?;
            Ok(said.word.to_string())
        }
        19 => {
            let Why { rounds, has_member, member, .. } = *said;
            expect(*said == Why { rounds, has_member, member, ..plain }, "19 tells of another cause")?;
            expect(has_member || member == 0, "a member is told where there is none")?;
            let told: Vec<String> = fixed.chunks(2).take(rounds).map(round).collect();
            let told = if told.is_empty() { "-".into() } else { told.join(";") };
            Ok(if has_member { format!("{told} m{member}") } else { told })
        }
        _ => {
            expect(*said == plain, "a number without a cause tells of one")?;
            Ok("-".into())
        }
    }
}

/// The literals of a round by variable, joined by commas.
fn round(words: &[u64]) -> String {
    let literals = (1..=64).flat_map(|v: i32| {
        let has = |word: u64| word >> (v - 1) & 1 == 1;
        has(words[0]).then_some(v).into_iter().chain(has(words[1]).then_some(-v))
    });
    literals.map(|literal| literal.to_string()).collect::<Vec<_>>().join(",")
}
