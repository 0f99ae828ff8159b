//! The clause at a place of a binary DRAT proof.

/// From the place: how many bytes the clause has, and its literals, as far as they can be read.
pub struct Clause {
    pub length: usize,
    pub literals: Vec<i64>,
}

/// The clause whose opening byte, `61` or `64`, is first; or, from a literal on, the one literal.
pub fn clause(bytes: &[u8]) -> Clause {
    let mut at = usize::from(matches!(bytes.first(), Some(0x61 | 0x64)));
    let whole = at == 1;
    let mut literals = Vec::new();
    while let Some((length, literal)) = literal(&bytes[at..]) {
        at += length;
        literals.extend(literal);
        if !whole || literal.is_none() {
            break;
        }
    }
    Clause { length: at.max(1).min(bytes.len()), literals }
}

/// The length of a number in groups of seven bits, and the literal that it is; a closing 0 is none.
fn literal(bytes: &[u8]) -> Option<(usize, Option<i64>)> {
    let length = 1 + bytes.iter().position(|byte| byte & 0x80 == 0)?;
    let groups = bytes[..length.min(8)].iter().rev();
    let number = groups.fold(0i64, |number, group| number << 7 | i64::from(group & 0x7f));
    let sign = if number % 2 == 1 { -1 } else { 1 };
    Some((length, (number != 0).then_some(sign * (number / 2))))
}

#[cfg(test)]
mod tests {
    use super::*;

    #[test]
    fn clauses() {
        let read = |bytes: &[u8]| {
            let Clause { length, literals } = clause(bytes);
            (length, literals)
        };
        assert_eq!(read(b"\x61\x02\x81\x01\0\x61"), (5, vec![1, -64]));
        assert_eq!(read(b"\x64\0"), (2, vec![]));
        // A literal alone; one that is cut; what is no clause; nothing.
        assert_eq!(read(b"\x81\x01\0"), (2, vec![-64]));
        assert_eq!(read(b"\x61\x81"), (1, vec![]));
        assert_eq!(read(b"\xff\xff\xff\xff\xff\xff\xff\xff\xff\xff\x01").0, 11);
        assert_eq!(read(b""), (0, vec![]));
    }
}
