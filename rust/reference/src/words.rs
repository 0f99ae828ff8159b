//! Words of the line protocol: numbers, bytes and lists, read and written.

/// The digits up to the given sign, which is passed over; the last ones end with the text.
pub fn field<'a>(rest: &mut &'a [u8], end: u8) -> Option<&'a [u8]> {
    let length = rest.iter().position(|b| !b.is_ascii_digit()).unwrap_or(rest.len());
    let (digits, after) = rest.split_at(length);
    *rest = match after {
        [sign, tail @ ..] if *sign == end && !tail.is_empty() => tail,
        [] if end == b';' => after,
        _ => return None,
    };
    Some(digits)
}

/// "A number that its column or parameter cannot hold (a node number over 65,535) is no command."
pub fn node_number(digits: &[u8]) -> Option<u32> {
    u16::try_from(decimal(digits)?).ok().map(u32::from)
}

pub fn decimal(digits: &[u8]) -> Option<u64> {
    if digits.is_empty() {
        return None;
    }
    digits.iter().try_fold(0u64, |value, &digit| {
        let more = digit.is_ascii_digit().then(|| (digit - b'0') as u64)?;
        value.checked_mul(10)?.checked_add(more)
    })
}

pub fn hex(digits: &[u8]) -> Option<Vec<u8>> {
    if digits == b"-" {
        return Some(Vec::new());
    }
    if digits.is_empty() || !digits.len().is_multiple_of(2) {
        return None;
    }
    digits.chunks_exact(2).map(|pair| Some(hex_digit(pair[0])? << 4 | hex_digit(pair[1])?)).collect()
}

fn hex_digit(digit: u8) -> Option<u8> {
    match digit {
        b'0'..=b'9' => Some(digit - b'0'),
        b'a'..=b'f' => Some(digit - b'a' + 10),
        _ => None,
    }
}

pub fn push_list<T>(out: &mut Vec<u8>, between: u8, items: &[T], push: impl Fn(&mut Vec<u8>, &T)) {
    if items.is_empty() {
        out.push(b'-');
    }
    for (at, item) in items.iter().enumerate() {
        if at > 0 {
            out.push(between);
        }
        push(out, item);
    }
}

pub fn push_number(out: &mut Vec<u8>, mut value: u64) {
    let mut digits = [0u8; 20];
    let mut at = digits.len();
    loop {
        at -= 1;
        digits[at] = b'0' + (value % 10) as u8;
        value /= 10;
        if value == 0 {
            break;
        }
    }
    out.extend_from_slice(&digits[at..]);
}

/// Numbers with a space between.
pub fn push_numbers(out: &mut Vec<u8>, values: &[u64]) {
    for (at, &value) in values.iter().enumerate() {
        if at > 0 {
            out.push(b' ');
        }
        push_number(out, value);
    }
}

pub fn push_hex(out: &mut Vec<u8>, bytes: &[u8]) {
    const DIGITS: &[u8; 16] = b"0123456789abcdef";
    if bytes.is_empty() {
        out.push(b'-');
    }
    for byte in bytes {
        out.extend([DIGITS[usize::from(byte >> 4)], DIGITS[usize::from(byte & 15)]]);
    }
}
