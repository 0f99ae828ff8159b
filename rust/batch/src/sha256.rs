//! SHA-256 (FIPS 180-4).

pub type Digest = [u8; 32];

const START: [u32; 8] =
    [0x6a09e667, 0xbb67ae85, 0x3c6ef372, 0xa54ff53a, 0x510e527f, 0x9b05688c, 0x1f83d9ab, 0x5be0cd19];

const K: [u32; 64] = [
    0x428a2f98, 0x71374491, 0xb5c0fbcf, 0xe9b5dba5, 0x3956c25b, 0x59f111f1, 0x923f82a4, 0xab1c5ed5, 0xd807aa98,
    0x12835b01, 0x243185be, 0x550c7dc3, 0x72be5d74, 0x80deb1fe, 0x9bdc06a7, 0xc19bf174, 0xe49b69c1, 0xefbe4786,
    0x0fc19dc6, 0x240ca1cc, 0x2de92c6f, 0x4a7484aa, 0x5cb0a9dc, 0x76f988da, 0x983e5152, 0xa831c66d, 0xb00327c8,
    0xbf597fc7, 0xc6e00bf3, 0xd5a79147, 0x06ca6351, 0x14292967, 0x27b70a85, 0x2e1b2138, 0x4d2c6dfc, 0x53380d13,
    0x650a7354, 0x766a0abb, 0x81c2c92e, 0x92722c85, 0xa2bfe8a1, 0xa81a664b, 0xc24b8b70, 0xc76c51a3, 0xd192e819,
    0xd6990624, 0xf40e3585, 0x106aa070, 0x19a4c116, 0x1e376c08, 0x2748774c, 0x34b0bcb5, 0x391c0cb3, 0x4ed8aa4a,
    0x5b9cca4f, 0x682e6ff3, 0x748f82ee, 0x78a5636f, 0x84c87814, 0x8cc70208, 0x90befffa, 0xa4506ceb, 0xbef9a3f7,
    0xc67178f2,
];

/// A round. The eight words of the state are named from another start each time, so that none of them is moved.
macro_rules! round {
    ($a:ident $b:ident $c:ident $d:ident $e:ident $f:ident $g:ident $h:ident, $added:expr) => {
        let one = $e.rotate_right(6) ^ $e.rotate_right(11) ^ $e.rotate_right(25);
        let one = $h.wrapping_add($added).wrapping_add($g ^ ($e & ($f ^ $g))).wrapping_add(one);
        let two = $a.rotate_right(2) ^ $a.rotate_right(13) ^ $a.rotate_right(22);
        $d = $d.wrapping_add(one);
        $h = one.wrapping_add(two).wrapping_add(($a & $b).wrapping_add($c & ($a ^ $b)));
    };
}

/// Eight rounds, from constant and word number `$from`, after which the names are as before.
macro_rules! eight_rounds {
    ($a:ident $b:ident $c:ident $d:ident $e:ident $f:ident $g:ident $h:ident, $k:ident, $word:ident, $from:literal) => {
        round!($a $b $c $d $e $f $g $h, $word($from).wrapping_add($k[$from]));
        round!($h $a $b $c $d $e $f $g, $word($from + 1).wrapping_add($k[$from + 1]));
        round!($g $h $a $b $c $d $e $f, $word($from + 2).wrapping_add($k[$from + 2]));
        round!($f $g $h $a $b $c $d $e, $word($from + 3).wrapping_add($k[$from + 3]));
        round!($e $f $g $h $a $b $c $d, $word($from + 4).wrapping_add($k[$from + 4]));
        round!($d $e $f $g $h $a $b $c, $word($from + 5).wrapping_add($k[$from + 5]));
        round!($c $d $e $f $g $h $a $b, $word($from + 6).wrapping_add($k[$from + 6]));
        round!($b $c $d $e $f $g $h $a, $word($from + 7).wrapping_add($k[$from + 7]));
    };
}

/// The next word of the message schedule, put in the place of the one sixteen before it.
#[inline(always)]
fn next_word(w: &mut [u32; 16], i: usize) -> u32 {
    let (x, y) = (w[(i + 1) % 16], w[(i + 14) % 16]);
    let x = x.rotate_right(7) ^ x.rotate_right(18) ^ (x >> 3);
    let y = y.rotate_right(17) ^ y.rotate_right(19) ^ (y >> 10);
    w[i] = w[i].wrapping_add(x).wrapping_add(w[(i + 9) % 16]).wrapping_add(y);
    w[i]
}

fn take_block(state: &mut [u32; 8], block: &[u8; 64]) {
    let mut w = [0; 16];
    for (word, four) in w.iter_mut().zip(block.as_chunks().0) {
        *word = u32::from_be_bytes(*four);
    }
    let [mut a, mut b, mut c, mut d, mut e, mut f, mut g, mut h] = *state;
    let [first, others @ ..] = K.as_chunks::<16>().0 else { unreachable!() };
    let word = |i: usize| w[i];
    eight_rounds!(a b c d e f g h, first, word, 0);
    eight_rounds!(a b c d e f g h, first, word, 8);
    for k in others {
        let mut word = |i: usize| next_word(&mut w, i);
        eight_rounds!(a b c d e f g h, k, word, 0);
        eight_rounds!(a b c d e f g h, k, word, 8);
    }
    for (word, more) in state.iter_mut().zip([a, b, c, d, e, f, g, h]) {
        *word = word.wrapping_add(more);
    }
}

pub fn of(bytes: &[u8]) -> Digest {
    let mut state = START;
    let (blocks, rest) = bytes.as_chunks();
    blocks.iter().for_each(|block| take_block(&mut state, block));
    // The rest, a one bit, zeros and the length in bits, in one block or two.
    let mut last = [0u8; 128];
    let length = if rest.len() < 56 { 64 } else { 128 };
    last[..rest.len()].copy_from_slice(rest);
    last[rest.len()] = 0x80;
    last[length - 8..length].copy_from_slice(&(8 * bytes.len() as u64).to_be_bytes());
    last[..length].as_chunks().0.iter().for_each(|block| take_block(&mut state, block));
    let mut digest = [0; 32];
    for (four, word) in digest.chunks_exact_mut(4).zip(state) {
        four.copy_from_slice(&word.to_be_bytes());
    }
    digest
}

pub fn hex(digest: &Digest) -> String {
    let mut out = String::with_capacity(2 * digest.len());
    put_hex(&mut out, digest);
    out
}

/// Writes the digest after the text.
pub fn put_hex(out: &mut String, digest: &Digest) {
    let digit = |four: u8| b"0123456789abcdef"[usize::from(four)];
    let mut digits = [0; 64];
    for (two, byte) in digits.chunks_exact_mut(2).zip(digest) {
        two.copy_from_slice(&[digit(byte >> 4), digit(byte & 15)]);
    }
    out.extend(str::from_utf8(&digits));
}

#[cfg(test)]
mod tests {
    use super::*;

    #[test]
    fn published_examples() {
        let empty = "e3b0c44298fc1c149afbf4c8996fb92427ae41e4649b934ca495991b7852b855";
        let abc = "ba7816bf8f01cfea414140de5dae2223b00361a396177a9cb410ff61f20015ad";
        let two = "248d6a61d20638b8e5c026930c3e6039a33ce45964ff2167f6ecedd419db06c1";
        let million = "cdc76e5c9914fb9281a1c7e284d73e67f1809a48a497200e046d39ccc7112cd0";
        assert_eq!(hex(&of(b"")), empty);
        assert_eq!(hex(&of(b"abc")), abc);
        assert_eq!(hex(&of(b"abcdbcdecdefdefgefghfghighijhijkijkljklmklmnlmnomnopnopq")), two);
        assert_eq!(hex(&of(&[b'a'; 1_000_000])), million);
    }

    /// Lengths around the ends of blocks; the sums are those of `head -c N /dev/zero | sha256sum`.
    #[test]
    fn ends_of_blocks() {
        let sums = [
            (55, "02779466cdec163811d078815c633f21901413081449002f24aa3e80f0b88ef7"),
            (56, "d4817aa5497628e7c77e6b606107042bbba3130888c5f47a375e6179be789fbb"),
            (63, "c7723fa1e0127975e49e62e753db53924c1bd84b8ac1ac08df78d09270f3d971"),
            (64, "f5a5fd42d16a20302798ef6ed309979b43003d2320d9f0e8ea9831a92759fb4b"),
            (65, "98ce42deef51d40269d542f5314bef2c7468d401ad5d85168bfab4c0108f75f7"),
        ];
        for (length, sum) in sums {
            assert_eq!(hex(&of(&vec![0; length])), sum, "{length}");
        }
    }
}
