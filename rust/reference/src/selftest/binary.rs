//! DRAT proofs from text to binary and back.

use super::drat::Written;
use super::*;

#[test]
fn there_and_back() {
    let mut random = Random(0xB1A);
    let mut d = Session::new();
    for _ in 0..5_000 {
        let mut proof = Written::new(&mut random);
        let mut plain = String::new();
        for _ in 0..random.below(5) {
            let (strikes, mut literals) = (random.one_in(3), Vec::new());
            for _ in 0..random.below(6) {
                literals.push((1 + random.below(63) as i32) * if random.one_in(2) { 1 } else { -1 });
            }
            proof.push(&mut random, strikes, &literals);
            let words: Vec<String> = literals.iter().map(|literal| format!("{literal} ")).collect();
            plain.push_str(&format!("{}{}0\n", if strikes { "d " } else { "" }, words.concat()));
        }
        let (binary, plain) = (hex(&proof.binary), hex(plain.as_bytes()));
        let size = |bytes: &str| if bytes == "-" { 0 } else { bytes.len() / 2 };
        let answer = |bytes: &str| format!("0 0 {} | {bytes}", size(bytes));
        let line = format!("tobin {} {}", size(&binary), hex(proof.text.as_bytes()));
        assert_eq!(ask(&mut d, &line), answer(&binary), "{line}");
        let line = format!("totext {} {binary}", size(&plain));
        assert_eq!(ask(&mut d, &line), answer(&plain), "{line}");
        assert_eq!(ask(&mut d, &format!("tobin {} {plain}", size(&binary))), answer(&binary));
        if size(&plain) > 0 {
            let short = size(&plain) - 1;
            let zeros = hex(&vec![0; short]);
            assert_eq!(ask(&mut d, &format!("totext {short} {binary}")), format!("7 0 0 | {zeros}"));
        }
    }
}

/// A literal has one form only, so what is read is written again.
#[test]
fn every_binary_proof_that_is_read_comes_back() {
    const BYTES: [u8; 9] = [0x61, 0x64, 0, 1, 2, 3, 0x80, 0x81, 0xFF];
    let mut d = Session::new();
    let mut read = 0;
    for number in 0..9u32.pow(6) {
        let bytes: Vec<u8> = (0..6).map(|at| BYTES[(number / 9u32.pow(at) % 9) as usize]).collect();
        let said = ask(&mut d, &format!("totext 64 {}", hex(&bytes)));
        let words: Vec<&str> = said.split(' ').collect();
        if words[0] == "0" {
            let length: usize = words[2].parse().unwrap();
            let back = ask(&mut d, &format!("tobin 6 {}", &words[4][..2 * length]));
            assert_eq!(back, format!("0 0 6 | {}", hex(&bytes)));
            read += 1;
        } else {
            assert_eq!(said, format!("{} {} 0 | {}", words[0], words[1], "00".repeat(64)));
        }
    }
    assert!(read > 200, "{read}");
}
