//! DRAT proofs, text and binary, as clauses up to the first fault. Written from document 02 (4/14 and 9/14) and the public form alone.

/// The form of a DRAT proof.
#[derive(Clone, Copy, Debug, PartialEq, Eq)]
pub enum Form {
    Text,
    Binary,
}

/// A clause as it is written, and the place of its first byte or of the `d` before it.
#[derive(Clone, Debug, PartialEq, Eq)]
pub struct Clause {
    pub place: usize,
    pub strikes: bool,
    pub literals: Vec<i32>,
}

/// The clauses before the first fault; its number and place, where there is one.
#[derive(Clone, Debug, Default, PartialEq, Eq)]
pub struct Read {
    pub clauses: Vec<Clause>,
    pub fault: Option<(u8, usize)>,
}

/// A proof read for so many variables.
pub fn read(form: Form, proof: &[u8], variables: i32) -> Read {
    let mut clauses = Vec::new();
    let fault = match form {
        Form::Text => text(proof, variables, &mut clauses),
        Form::Binary => binary(proof, variables, &mut clauses),
    };
    Read { clauses, fault: fault.err() }
}

/// Tokens with their places: lines whose first byte is `c` have none.
pub fn tokens(text: &[u8]) -> Vec<(usize, &[u8])> {
    let mut found = Vec::new();
    let mut start = 0;
    for line in text.split(|byte| *byte == b'\n') {
        if line.first() != Some(&b'c') {
            let mut at = start;
            for word in line.split(|byte| b" \t\r".contains(byte)) {
                if !word.is_empty() {
                    found.push((at, word));
                }
                at += word.len() + 1;
            }
        }
        start += line.len() + 1;
    }
    found
}

/// A literal or the closing 0, or the number that refuses the token.
pub fn literal(token: &[u8], variables: i32) -> Result<i32, u8> {
    let digits = token.strip_prefix(b"-").unwrap_or(token);
    match digits {
        b"0" if token == b"0" => return Ok(0),
        [b'1'..=b'9', rest @ ..] if rest.iter().all(u8::is_ascii_digit) => {}
        _ => return Err(3),
    }
    // More digits than 9 are beyond every header.
    let number =
        std::str::from_utf8(token).ok().filter(|_| digits.len() < 10).and_then(|word| word.parse::<i32>().ok());
    number.filter(|literal| literal.abs() <= variables).ok_or(4)
}

fn text(text: &[u8], variables: i32, clauses: &mut Vec<Clause>) -> Result<(), (u8, usize)> {
    let mut tokens = tokens(text).into_iter().peekable();
    while let Some(&(place, token)) = tokens.peek() {
        let strikes = token == b"d";
        if strikes {
            tokens.next();
        }
        let mut literals = Vec::new();
        loop {
            let (at, token) = tokens.next().ok_or((6, place))?;
            match literal(token, variables).map_err(|number| (number, at))? {
                0 => break,
                literal => literals.push(literal),
            }
        }
        clauses.push(Clause { place, strikes, literals });
    }
    Ok(())
}

fn binary(bytes: &[u8], variables: i32, clauses: &mut Vec<Clause>) -> Result<(), (u8, usize)> {
    let mut at = 0;
    while at < bytes.len() {
        let (place, mut literals) = (at, Vec::new());
        let strikes = match bytes[at] {
            0x61 => false,
            0x64 => true,
            _ => return Err((9, at)),
        };
        at += 1;
        loop {
            let first = at;
            // The groups to the first whose top bit is not set.
            while *bytes.get(at).ok_or((6, place))? >= 0x80 {
                at += 1;
            }
            let groups = &bytes[first..=at];
            at += 1;
            match groups {
                [0] => break,
                [1] | [.., _, 0] => return Err((31, first)),
                _ => literals.push(number(groups).filter(|literal| literal.abs() <= variables).ok_or((4, first))?),
            }
        }
        clauses.push(Clause { place, strikes, literals });
    }
    Ok(())
}

/// The literal of some groups, where there are at most two: three with a last one that is not 0 are 16,384 or more.
fn number(groups: &[u8]) -> Option<i32> {
    if groups.len() > 2 {
        return None;
    }
    let number = groups.iter().rev().fold(0, |number, group| number << 7 | i32::from(group & 0x7f));
    Some(if number % 2 == 0 { number / 2 } else { -(number / 2) })
}

/// Clauses in binary.
pub fn to_bytes(clauses: &[Clause]) -> Vec<u8> {
    let mut bytes = Vec::new();
    for clause in clauses {
        bytes.push(if clause.strikes { 0x64 } else { 0x61 });
        clause.literals.iter().for_each(|literal| bytes.extend(groups(*literal)));
        bytes.push(0);
    }
    bytes
}

/// The groups of a literal, as few as do.
pub fn groups(literal: i32) -> Vec<u8> {
    let mut left = 2 * literal.unsigned_abs() + u32::from(literal < 0);
    let mut groups = Vec::new();
    loop {
        let group = (left % 128) as u8;
        left /= 128;
        groups.push(if left > 0 { group | 0x80 } else { group });
        if left == 0 {
            return groups;
        }
    }
}

/// Clauses as text: single spaces, a clause a line.
pub fn to_text(clauses: &[Clause]) -> Vec<u8> {
    let line = |clause: &Clause| {
        let literals: String = clause.literals.iter().map(|literal| format!("{literal} ")).collect();
        format!("{}{literals}0\n", if clause.strikes { "d " } else { "" })
    };
    clauses.iter().map(line).collect::<String>().into_bytes()
}

#[cfg(test)]
mod tests {
    use super::*;

    #[test]
    fn rows_of_the_request() {
        assert_eq!(groups(-64), [0x81, 0x01]);
        assert_eq!((groups(1), groups(63), groups(-63), groups(64)), (vec![2], vec![126], vec![127], vec![0x80, 1]));
        for (bytes, number, place) in [
            (&b"\x61\x02"[..], 6, 0),
            (b"\x61\x81", 6, 0),
            (b"\x61", 6, 0),
            (b"\x61\x01", 31, 1),
            (b"\x61\x80\x00", 31, 1),
            (b"\x61\x02\x82\x80\x00", 31, 2),
            (b"\x61\x81\x00\x02", 31, 1),
            (b"\x61\x82\x01\x00", 4, 1),
            (b"\x61\xff\xff\xff\xff\xff\xff\xff\xff\xff\xff\x01", 4, 1),
            (b"\x61\x00\x62", 9, 2),
            (b"\x00", 9, 0),
        ] {
            assert_eq!(read(Form::Binary, bytes, 64).fault, Some((number, place)), "{bytes:x?}");
        }
        let fine = read(Form::Binary, b"\x61\x81\x01\x02\x00\x64\x00", 64);
        let clause = |place, strikes, literals: &[i32]| Clause { place, strikes, literals: literals.to_vec() };
        assert_eq!(fine.fault, None);
        assert_eq!(fine.clauses, [clause(0, false, &[-64, 1]), clause(5, true, &[])]);
        // Beyond the header, not beyond 64.
        assert_eq!(read(Form::Binary, b"\x61\x06\x00", 2).fault, Some((4, 1)));
    }

    #[test]
    fn there_and_back() {
        let text = b"c\n-64 1\t0 d\nc 0\n 2 2 -2 0\n0 d 0";
        let there = read(Form::Text, text, 64);
        assert_eq!(to_text(&there.clauses), b"-64 1 0\nd 2 2 -2 0\n0\nd 0\n");
        let bytes = to_bytes(&there.clauses);
        let back = read(Form::Binary, &bytes, 64);
        assert_eq!(to_text(&back.clauses), to_text(&there.clauses));
        assert_eq!(to_bytes(&back.clauses), bytes);
    }
}
