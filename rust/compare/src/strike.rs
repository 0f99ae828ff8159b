//! Strikings that are fine, put into a proof: mostly of members that no later line wants.

use crate::families::Problem;
use crate::proof::{Builder, Line, Striking};
use crate::random::Random;

/// Strikes out a live member: mostly one that follows from the others, so that what could be shown can be shown still.
pub fn one(random: &mut Random, builder: &mut Builder) {
    let live: Vec<usize> = (0..builder.members.len()).filter(|member| !builder.struck[*member]).collect();
    if live.is_empty() {
        return;
    }
    let member = random.pick(&live);
    let whole = builder.whole();
    builder.struck[member] = true;
    let follows = builder.whole() == whole;
    builder.struck[member] = false;
    if follows || random.percent(20) {
        builder.strike(member);
    }
}

/// The problem with its lines and strikings written anew, and more strikings strewn among the records. Most are tried first: each line is
/// accepted still.
pub fn strewn(random: &mut Random, problem: &Problem) -> Problem {
    let Problem { formula, builder } = problem;
    let (clauses, lines) = (formula.clauses.len(), builder.lines.len());
    let mut start = builder.anew(clauses);
    let mut chosen = builder.strikings.clone();
    for _ in 0..random.between(1, 5) {
        let line = random.below(lines + 1);
        let member = random.below((clauses + line).max(1));
        if clauses + line == 0 || chosen.iter().any(|(_, other)| *other == member) {
            continue;
        }
        chosen.push((line, member));
        if random.percent(90) && !pass(&mut start.clone(), &builder.lines, &chosen) {
            chosen.pop();
        }
    }
    write(random, &mut start, &builder.lines, &chosen);
    Problem { formula: formula.clone(), builder: start }
}

fn before(line: usize, chosen: &[Striking]) -> Vec<usize> {
    chosen.iter().filter(|(at, _)| *at == line).map(|(_, member)| *member).collect()
}

/// Whether each line is accepted by what is live then.
fn pass(builder: &mut Builder, lines: &[Line], chosen: &[Striking]) -> bool {
    lines.iter().enumerate().all(|(at, line)| {
        for member in before(at, chosen) {
            builder.struck[member] = true;
        }
        let accepted = builder.accepts(*line);
        builder.members.push(line.g);
        builder.struck.push(false);
        accepted
    })
}

/// Writes the lines, each with its strikings strewn among its records.
pub fn write(random: &mut Random, builder: &mut Builder, lines: &[Line], chosen: &[Striking]) {
    for (at, line) in lines.iter().enumerate() {
        builder.write_striking(random, *line, &before(at, chosen));
    }
    for member in before(lines.len(), chosen) {
        builder.strike(member);
    }
}

#[cfg(test)]
mod tests {
    use super::*;
    use crate::families;

    /// Half of the proofs get strikings and stay accepted; records and lines start where the writer says.
    #[test]
    fn most_stay_accepted() {
        let random = &mut Random::new(1);
        let (mut struck, mut accepted, mut within) = (0, 0, 0);
        for _ in 0..100 {
            let plain = families::any(random);
            let problem = strewn(random, &plain);
            let Builder { writer, lines, strikings, .. } = &problem.builder;
            let kinds: Vec<u8> = writer.records.iter().map(|start| writer.bytes[*start]).collect();
            let count = |kind: u8| kinds.iter().filter(|other| **other == kind).count();
            let closing = count(0x52) + count(0x50) + count(0x51);
            assert_eq!((count(0x44), closing), (strikings.len(), plain.builder.lines.len()));
            assert!(writer.lines.windows(2).all(|pair| [0x52, 0x50, 0x51].contains(&writer.bytes[pair[1] - 3])));
            let mut again = problem.builder.anew(problem.formula.clauses.len());
            struck += usize::from(!strikings.is_empty());
            accepted += usize::from(!strikings.is_empty() && pass(&mut again, lines, strikings));
            within += usize::from(kinds.windows(2).any(|pair| pair == [0x4e, 0x44]));
        }
        assert!(struck > 75 && accepted > 50 && within > 25, "{struck} {accepted} {within}");
    }
}
