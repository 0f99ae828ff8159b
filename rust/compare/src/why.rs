//! Why a check is refused: the question that belongs to a check, and what the check's answer says of its answer.

/// What the check said, in the words of the call that explains it.
#[derive(Debug, PartialEq, Eq)]
pub struct Wanted {
    /// The check's number; 30 where it did not refuse.
    number: usize,
    /// The check's place; 0 for 7 and 30.
    place: usize,
}

/// The question why a check is refused, with what is known of the answer; none where the command is no check.
pub fn of(command: &str, answer: &str) -> Option<(String, Wanted)> {
    let (profile, asked) = command.strip_prefix("cons ").map_or(("", command), |rest| ("cons ", rest));
    let (word, rest) = asked.split_once(' ')?;
    let form = match word {
        "check" => 'r',
        "drat" => 't',
        "dratb" => 'b',
        _ => return None,
    };
    let mut numbers = answer.split(' ').map_while(|word| word.parse().ok());
    let (number, place) = (numbers.next()?, numbers.next()?);
    let wanted = match number {
        0 => Wanted { number: 30, place: 0 },
        _ => Wanted { number, place },
    };
    Some((format!("{profile}why {form} {rest}"), wanted))
}

impl Wanted {
    /// Whether there is more to say than the number.
    pub fn has_cause(&self) -> bool {
        matches!(self.number, 14 | 18 | 19)
    }

    /// Whether the answer has this number and a piece that starts at this place.
    pub fn met(&self, answer: &str) -> bool {
        let mut parts = answer.split(" | ");
        let number = parts.next().and_then(|word| word.parse().ok());
        let start = parts.next().and_then(|piece| piece.split(' ').nth(1)?.parse().ok());
        (number, start) == (Some(self.number), Some(self.place))
    }
}

#[cfg(test)]
mod tests {
    use super::*;

    #[test]
    fn questions() {
        for (command, answer, question, number, place) in [
            ("check 64 2048 4096 70 45", "20 0 0 0 3 3 | - | - | -", "why r 64 2048 4096 70 45", 20, 0),
            ("cons drat 8 9 10 70 - !HS=3", "7 0 0 0 2 0 | - | - | -", "cons why t 8 9 10 70 - !HS=3", 7, 0),
            ("dratb 64 2048 4096 70 61", "0 12 2 1 10 10 | - | - | -", "why b 64 2048 4096 70 61", 30, 0),
        ] {
            assert_eq!(of(command, answer), Some((question.into(), Wanted { number, place })));
        }
        assert_eq!(of("not 4 3 1,0,1 2", "0 3 4 | 1,0,1;1,1,0"), None);
        assert_eq!(of("check 64 2048 4096 70 45", "error: not a command"), None);
    }

    #[test]
    fn answers() {
        let wanted = Wanted { number: 19, place: 6 };
        assert!(wanted.met("19 | p 6 3 | 2"));
        for answer in ["19 | p 5 3 | 2", "30 | p 6 3 | 2", "19", "error: not a command"] {
            assert!(!wanted.met(answer), "{answer}");
        }
    }
}
