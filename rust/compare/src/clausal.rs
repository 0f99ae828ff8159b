//! What RUP and RAT over clauses say of a DRAT proof, text or binary: sets of literals, unit propagation and no diagrams. Written from the
//! public definitions (Heule, Hunt, Wetzler: "Trimming while Checking Clausal Proofs", FMCAD 2013, and "Verifying Refutations with Extended
//! Resolution", CADE 2013). Document 02, 4/14: where no clause has both signs of a variable the check must accept just these clauses,
//! given room; 11/14: in the consequence profile just those that are RUP.

use crate::read::{literal, read, tokens, Form};

/// A set of literals: bit i - 1 of a word for variable i, plain or negated.
#[derive(Clone, Copy, Debug, Default, PartialEq, Eq)]
pub struct Literals {
    plain: u64,
    negated: u64,
}

impl Literals {
    pub fn of(literals: &[i32]) -> Literals {
        literals.iter().fold(Literals::default(), |set, literal| {
            let bit = 1 << (literal.unsigned_abs() - 1);
            set.and(if *literal > 0 {
                Literals { plain: bit, negated: 0 }
            } else {
                Literals { plain: 0, negated: bit }
            })
        })
    }

    /// The negation of each of them.
    fn opposite(self) -> Literals {
        Literals { plain: self.negated, negated: self.plain }
    }

    fn and(self, other: Literals) -> Literals {
        Literals { plain: self.plain | other.plain, negated: self.negated | other.negated }
    }

    fn without(self, other: Literals) -> Literals {
        Literals { plain: self.plain & !other.plain, negated: self.negated & !other.negated }
    }

    fn shares(self, other: Literals) -> bool {
        self.plain & other.plain != 0 || self.negated & other.negated != 0
    }

    fn count(self) -> u32 {
        self.plain.count_ones() + self.negated.count_ones()
    }

    pub fn both_signs(self) -> bool {
        self.plain & self.negated != 0
    }
}

/// Whether unit propagation from these literals, taken as true, comes to a clause all of whose literals are false.
fn conflict(clauses: &[Literals], mut truths: Literals) -> bool {
    loop {
        if truths.both_signs() {
            return true;
        }
        let before = truths;
        for clause in clauses {
            if clause.shares(truths) {
                continue;
            }
            let open = clause.without(truths.opposite());
            match open.count() {
                0 => return true,
                1 => truths = truths.and(open),
                _ => {}
            }
        }
        if truths == before {
            return false;
        }
    }
}

/// Reverse unit propagation: the clause's literals taken as false come to a conflict.
pub fn rup(clauses: &[Literals], clause: Literals) -> bool {
    conflict(clauses, clause.opposite())
}

/// Resolution asymmetric tautology: each resolvent by the pivot, the clause's literals with those of the other clause but for the negated
/// pivot, is RUP.
pub fn rat(clauses: &[Literals], pivot: i32, clause: Literals) -> bool {
    let against = Literals::of(&[-pivot]);
    let resolved = clauses.iter().filter(|other| other.shares(against));
    resolved.into_iter().all(|other| rup(clauses, clause.and(other.without(against))))
}

/// Number and place of a check, the clauses that it accepts, and how many of them are RAT and not RUP.
#[derive(Clone, Copy, Debug, PartialEq, Eq)]
pub struct Said {
    pub number: u8,
    pub place: usize,
    pub lines: usize,
    pub by_rat: usize,
}

/// The variables and the clauses of a formula that the check has read.
fn formula(text: &[u8]) -> Option<(i32, Vec<Literals>)> {
    let lines = text.split_inclusive(|byte| *byte == b'\n').scan(0, |start, line| {
        *start += line.len();
        Some((*start, line))
    });
    let mut lines = lines.filter(|(_, line)| line.first() != Some(&b'c') && !line.trim_ascii().is_empty());
    let (end, header) = lines.next()?;
    let variables = std::str::from_utf8(header).ok()?.split_ascii_whitespace().nth(2)?.parse().ok()?;
    let literals = tokens(&text[end..]).into_iter().map(|(_, token)| literal(token, variables).ok());
    let literals: Vec<i32> = literals.collect::<Option<_>>()?;
    let mut clauses: Vec<Literals> = literals.split(|literal| *literal == 0).map(Literals::of).collect();
    clauses.pop();
    Some((variables, clauses))
}

/// How a proof is asked for: its form, and whether the check is in the consequence profile.
#[derive(Clone, Copy, Debug, PartialEq, Eq)]
pub struct Asked {
    pub form: Form,
    pub consequence: bool,
}

impl Asked {
    /// By the words of a command that checks a DRAT proof.
    pub fn of(command: &str) -> Option<Asked> {
        let (command, consequence) = command.strip_prefix("cons ").map_or((command, false), |rest| (rest, true));
        let form = match command.split(' ').next()? {
            "drat" => Form::Text,
            "dratb" => Form::Binary,
            _ => return None,
        };
        Some(Asked { form, consequence })
    }
}

/// What is said of a DRAT proof for a formula that the check has read; none where a clause of either has both signs of a variable.
pub fn says(asked: Asked, formula: &[u8], proof: &[u8]) -> Option<Said> {
    let (variables, clauses) = self::formula(formula)?;
    if clauses.iter().any(|clause| clause.both_signs()) {
        return None;
    }
    let mut live = clauses;
    let mut said = Said { number: 0, place: proof.len(), lines: 0, by_rat: 0 };
    let refused = |said: Said, number, place| Some(Said { number, place, ..said });
    let mut refuted = false;
    let proof = read(asked.form, proof, variables);
    for written in &proof.clauses {
        let clause = Literals::of(&written.literals);
        if clause.both_signs() {
            return None;
        }
        if written.strikes {
            match live.iter().position(|member| *member == clause) {
                Some(at) => live.remove(at),
                None => return refused(said, 28, written.place),
            };
            continue;
        }
        if said.lines == 1024 {
            return refused(said, 22, written.place);
        }
        if !rup(&live, clause) {
            let pivot = written.literals.first();
            if asked.consequence || !pivot.is_some_and(|pivot| rat(&live, *pivot, clause)) {
                return refused(said, 19, written.place);
            }
            said.by_rat += 1;
        }
        said.lines += 1;
        refuted |= written.literals.is_empty();
        live.push(clause);
    }
    match proof.fault {
        Some((number, place)) => refused(said, number, place),
        None => Some(Said { number: if refuted { 0 } else { 20 }, ..said }),
    }
}

/// What clauses say where they are asked, and whether an answer of the line protocol agrees. Asked of a check of a DRAT proof whose formula
/// was read, which shows in the members; where the table was full, the lines before must be among the accepted ones.
pub fn hold(command: &str, answer: &str) -> Option<(Said, bool)> {
    let asked = Asked::of(command)?;
    let words: Vec<&str> = command.strip_prefix("cons ").unwrap_or(command).split(' ').collect();
    let parts: Vec<&str> = answer.split(" | ").collect();
    if parts.get(2).is_none_or(|members| *members == "-") {
        return None;
    }
    let said = says(asked, &bytes(words[4])?, &bytes(words[5])?)?;
    let numbers: Vec<usize> = parts[0].split(' ').map_while(|word| word.parse().ok()).collect();
    let agrees = match numbers[..] {
        [23, _, lines, ..] => lines <= said.lines,
        [number, place, lines, ..] => (number, place, lines) == (said.number.into(), said.place, said.lines),
        _ => false,
    };
    Some((said, agrees))
}

/// Bytes from hex, `-` for none.
pub fn bytes(hex: &str) -> Option<Vec<u8>> {
    if hex == "-" {
        return Some(Vec::new());
    }
    (0..hex.len()).step_by(2).map(|at| u8::from_str_radix(hex.get(at..at + 2)?, 16).ok()).collect()
}

#[cfg(test)]
mod tests {
    use super::*;

    const TEXT: Asked = Asked { form: Form::Text, consequence: false };
    const BINARY: Asked = Asked { form: Form::Binary, consequence: false };

    fn told_in(asked: Asked, formula: &str, proof: &[u8]) -> Option<(u8, usize, usize, usize)> {
        says(asked, formula.as_bytes(), proof).map(|said| (said.number, said.place, said.lines, said.by_rat))
    }

    fn told(formula: &str, text: &str) -> Option<(u8, usize, usize, usize)> {
        told_in(TEXT, formula, text.as_bytes())
    }

    const ALL_FOUR: &str = "p cnf 2 4\n1 2 0\n-1 2 0\n1 -2 0\n-1 -2 0\n";
    const CHAIN: &str = "c\np cnf 3 2\n1\nc 0\n2 0\n-1 3 0\n";

    #[test]
    fn texts() {
        for (formula, text, said) in [
            (ALL_FOUR, "2 0\n0\n", Some((0, 6, 2, 0))),
            (ALL_FOUR, "0", Some((19, 0, 0, 0))),
            (ALL_FOUR, "2 0 d 2 1 0 d -1 2 0 0 1 0", Some((0, 26, 3, 0))),
            (ALL_FOUR, "2 0 d 1 -2 0 0", Some((19, 13, 1, 0))),
            (ALL_FOUR, "c\n2\nc 0\n\t0\r\nd\nc\n 2 1 2 0 d 1 2 0", Some((28, 25, 1, 0))),
            (ALL_FOUR, "2 0 1 -1 0", None),
            ("p cnf 2 2\n1 2 0 1 -1 0\n", "2 0", None),
            (CHAIN, "1 3 0", Some((19, 0, 0, 0))),
            (CHAIN, "3 1 0", Some((20, 5, 1, 1))),
            (CHAIN, "2 1 2 0 d", Some((6, 8, 1, 0))),
            (CHAIN, " -1 3", Some((6, 1, 0, 0))),
            (CHAIN, "-1 3 0 -1 4", Some((4, 10, 1, 0))),
            (CHAIN, "-1 99999999999999999999 0", Some((4, 3, 0, 0))),
            (CHAIN, "d1 0", Some((3, 0, 0, 0))),
            (CHAIN, "1 d 0", Some((3, 2, 0, 0))),
            (CHAIN, "d d 0", Some((3, 2, 0, 0))),
            (CHAIN, "3 1 0 -0", Some((3, 6, 1, 1))),
            (CHAIN, "", Some((20, 0, 0, 0))),
        ] {
            assert_eq!(told(formula, text), said, "{formula} {text}");
        }
        assert_eq!(told("p cnf 0 1\n0\n", &"0 ".repeat(1_025)), Some((22, 2_048, 1_024, 0)));
    }

    /// The same clauses in binary; RAT clauses in the profile.
    #[test]
    fn other_modes() {
        assert_eq!(told_in(BINARY, ALL_FOUR, b"\x61\x04\0\x61\0"), Some((0, 5, 2, 0)));
        assert_eq!(told_in(BINARY, ALL_FOUR, b"\x61\x04\0\x64\x04\x02\x04\0\x61\0"), Some((0, 10, 2, 0)));
        assert_eq!(told_in(BINARY, CHAIN, b"\x61\x06\x02\0"), Some((20, 4, 1, 1)));
        assert_eq!(told_in(BINARY, CHAIN, b"\x61\x02\x06\0"), Some((19, 0, 0, 0)));
        assert_eq!(told_in(BINARY, CHAIN, b"\x61\x06\x02\0\x61\x09\0"), Some((4, 5, 1, 1)));
        let profile = |asked| Asked { consequence: true, ..asked };
        assert_eq!(told_in(profile(TEXT), CHAIN, b"3 1 0"), Some((19, 0, 0, 0)));
        assert_eq!(told_in(profile(BINARY), CHAIN, b"\x61\x06\x02\0"), Some((19, 0, 0, 0)));
        assert_eq!(told_in(profile(BINARY), ALL_FOUR, b"\x61\x04\0\x61\0"), Some((0, 5, 2, 0)));
    }

    /// Both by every assignment: a RUP clause follows, and a RAT clause leaves what can be met so.
    #[test]
    fn sound_on_all_small_sets() {
        let clauses: Vec<Literals> = (0..27).map(signs).collect();
        let met = |set: &[Literals]| (0..8).any(|word| set.iter().all(|clause| holds(*clause, word)));
        let (mut by_rup, mut by_rat) = (0, 0);
        for first in 1..27 {
            for second in first..27 {
                let set = [clauses[first], clauses[second]];
                for (at, &clause) in clauses.iter().enumerate() {
                    let follows =
                        (0..8).all(|word| !set.iter().all(|other| holds(*other, word)) || holds(clause, word));
                    assert!(!rup(&set, clause) || follows, "{set:?} {clause:?}");
                    by_rup += usize::from(rup(&set, clause));
                    for pivot in literals(at) {
                        let passes = rat(&set, pivot, clause);
                        assert!(!passes || !met(&set) || met(&[set[0], set[1], clause]), "{set:?} {pivot} {clause:?}");
                        assert!(passes || !rup(&set, clause));
                        by_rat += usize::from(passes && !follows);
                    }
                }
            }
        }
        assert!(by_rup > 1_000 && by_rat > 1_000, "{by_rup} {by_rat}");
    }

    /// The literals of a clause over three variables by its number in base three: none, plain, negated.
    fn literals(number: usize) -> Vec<i32> {
        let digit = |place: u32| number as i32 / 3i32.pow(place) % 3;
        (0..3)
            .filter_map(|place| [None, Some(place as i32 + 1), Some(-1 - place as i32)][digit(place) as usize])
            .collect()
    }

    fn signs(number: usize) -> Literals {
        Literals::of(&literals(number))
    }

    fn holds(clause: Literals, word: u64) -> bool {
        clause.plain & word != 0 || clause.negated & !word != 0
    }

    #[test]
    fn answers_are_held() {
        let formula = "7020636e6620312031200a3120300a";
        let ask = |text: &str| format!("drat 64 2048 4096 {formula} {text}");
        let agrees = |text: &str, answer: &str| hold(&ask(text), answer).map(|(_, agrees)| agrees);
        assert_eq!(agrees("3020", "19 0 0 0 3 3 | 1,0,1 | 2 | 0"), Some(true));
        assert_eq!(agrees("3020", "0 2 1 0 3 3 | 1,0,1 | 2,0 | 00"), Some(false));
        assert_eq!(agrees("-", "20 0 0 0 3 3 | 1,0,1 | 2 | 0"), Some(true));
        assert_eq!(agrees("-", "20 1 0 0 3 3 | 1,0,1 | 2 | 0"), Some(false));
        assert_eq!(agrees("312030", "23 0 0 0 3 3 | 1,0,1 | 2 | 0"), Some(true));
        assert_eq!(agrees("3020", "23 0 1 0 3 3 | 1,0,1 | 2,0 | 00"), Some(false));
        assert_eq!(agrees("3020", "error: not a command"), None);
        assert_eq!(agrees("3020", "3 5 0 0 2 2 | - | - | -"), None);
        assert!(hold(&ask("3020").replace("drat", "check"), "19 0 0 0 3 3 | 1,0,1 | 2 | 0").is_none());
    }
}
