//! Conversions of DRAT proofs: document 02's rows, outputs of every size between guards, and proofs of solvers there and back.

use crate::texts::OUTSIDE;
use cablesalak::raw::{self, Converted};
use cablesalak::{to_binary, to_text, Mode, Number, Workspace};

/// What a conversion gives with an output of so many bytes, which held anything before; nothing outside is written.
fn with_room(convert: fn(&[u8], &mut [u8]) -> Converted, proof: &[u8], room: usize) -> (Converted, Vec<u8>) {
    const GUARD: usize = 16;
    let mut all = vec![0xA5; room + 2 * GUARD];
    let said = convert(proof, &mut all[GUARD..GUARD + room]);
    let outside = all[..GUARD].iter().chain(&all[GUARD + room..]);
    assert!(outside.into_iter().all(|byte| *byte == 0xA5));
    (said, all[GUARD..GUARD + room].to_vec())
}

/// The result where there is room, and zeros behind it; 7 and all zero where there is none.
fn is(convert: fn(&[u8], &mut [u8]) -> Converted, proof: &[u8], result: &[u8]) {
    let wanted = result.len();
    for room in 0..=wanted + 9 {
        let (said, out) = with_room(convert, proof, room);
        if room < wanted {
            assert_eq!(said, Converted { number: 7, place: 0, length: 0 }, "{proof:x?}, {room}");
            assert!(out.iter().all(|byte| *byte == 0));
        } else {
            assert_eq!(said, Converted { number: 0, place: 0, length: wanted }, "{proof:x?}, {room}");
            assert!(out[..wanted] == *result && out[wanted..].iter().all(|byte| *byte == 0));
        }
    }
}

/// Refused with room and without, before 7; all zero.
fn refused(convert: fn(&[u8], &mut [u8]) -> Converted, proof: &[u8], number: u8, place: usize) {
    for room in [0, 1, 2, 40] {
        let (said, out) = with_room(convert, proof, room);
        assert_eq!(said, Converted { number, place, length: 0 }, "{proof:x?}, {room}");
        assert!(out.iter().all(|byte| *byte == 0));
    }
}

#[test]
fn to_binary_rows() {
    is(raw::to_binary, b"-64 0", b"\x61\x81\x01\0");
    is(raw::to_binary, b"64 63 -63 1 -1 0", b"\x61\x80\x01\x7E\x7F\x02\x03\0");
    is(raw::to_binary, b"d 1 2 0", b"\x64\x02\x04\0");
    is(raw::to_binary, b"d 0\n0", b"\x64\0\x61\0");
    is(raw::to_binary, b"c 1 0\n1\nc\n\t1\r0\nc", b"\x61\x02\x02\0");
    is(raw::to_binary, b"", b"");
    is(raw::to_binary, b" \n\t\nc", b"");
}

#[test]
fn to_binary_refusals() {
    for (text, number, place) in [
        (&b"x"[..], 3, 0),
        (b"1 0 -0 0", 3, 4),
        (b"d d 0", 3, 2),
        (b" c", 3, 1),
        (b"1 65 0", 4, 2),
        (b"-65 x", 4, 0),
        (b"99999999999999999999999999 0", 4, 0),
        (b"1 0 2", 6, 4),
        (b"1 0\nd", 6, 4),
        (b"1 0 d 1", 6, 4),
    ] {
        refused(raw::to_binary, text, number, place);
        let error = to_binary(text).unwrap_err();
        assert_eq!((error.number.code(), error.place), (number, place));
    }
}

#[test]
fn to_text_rows() {
    is(raw::to_text, b"\x61\x81\x01\0", b"-64 0\n");
    is(raw::to_text, b"\x64\x02\x03\x02\0\x61\0", b"d 1 -1 1 0\n0\n");
    is(raw::to_text, b"\x61\x7E\x7F\x80\x01\0", b"63 -63 64 0\n");
    is(raw::to_text, b"\x64\0", b"d 0\n");
    is(raw::to_text, b"", b"");
}

#[test]
fn to_text_refusals() {
    for (binary, number, place) in [
        (&b"\0"[..], 9, 0),
        (b"\x61\0\x62", 9, 2),
        (b"1 0\n", 9, 0),
        (b"\x61", 6, 0),
        (b"\x61\x02", 6, 0),
        (b"\x61\x81", 6, 0),
        (b"\x61\0\x64\x02\x80\x80", 6, 2),
        // Surplus groups: of 0, of a literal, of 1; and the literal 1.
        (b"\x61\x80\0", 31, 1),
        (b"\x61\x02\x82\x80\0\0", 31, 2),
        (b"\x61\x81\0", 31, 1),
        (b"\x61\x01", 31, 1),
        (b"\x61\x02\x01\0", 31, 2),
        // Beyond 64, however far.
        (b"\x61\x82\x01\0", 4, 1),
        (b"\x61\x83\x01", 4, 1),
        (b"\x61\x80\x80\x01\0", 4, 1),
        (b"\x61\xFF\xFF\xFF\xFF\xFF\xFF\xFF\xFF\xFF\xFF\xFF\x7F\0", 4, 1),
        // Literal after literal: the first fault is the one that is told.
        (b"\x61\x01\x82\x01", 31, 1),
        (b"\x61\x82\x01\x01", 4, 1),
    ] {
        refused(raw::to_text, binary, number, place);
        let error = to_text(binary).unwrap_err();
        assert_eq!((error.number.code(), error.place), (number, place));
    }
    assert_eq!(to_text(b"\x61\x80\0").unwrap_err().to_string(), "31 at byte 1: surplus groups, or a literal 1");
}

/// CaDiCaL's own binary proofs are its texts converted, and are accepted as it writes them, in the consequence profile too.
#[test]
fn as_cadical_writes_them() {
    let mut workspace = Workspace::new(4_096).unwrap();
    for (text, binary, line) in [
        (OUTSIDE[0], &include_bytes!("../../../../examples/drat/pigeons-cadical.bdrat")[..], "0 247 48 461 149"),
        (OUTSIDE[2], include_bytes!("../../../../examples/drat/parities-cadical.bdrat"), "0 389 52 256 231"),
        (OUTSIDE[3], include_bytes!("../../../../examples/drat/rota-cadical.bdrat"), "0 326 59 492 707"),
        (OUTSIDE[5], include_bytes!("../../../../examples/drat/three-sat-cadical.bdrat"), "0 1643 201 3162 1369"),
    ] {
        let (formula, text, _) = text;
        assert_eq!(to_binary(text).as_deref(), Ok(binary));
        assert_eq!(workspace.check(Mode::BINARY, formula, binary).to_string(), line);
        assert_eq!(workspace.check(Mode::BINARY.in_consequence_profile(), formula, binary).to_string(), line);
    }
}

/// As much room as the wrapper lends is enough where a proof grows most.
#[test]
fn room_enough() {
    assert_eq!(to_binary(&b"0\n".repeat(500)), Ok(b"\x61\0".repeat(500)));
    assert_eq!(to_binary(b"0"), Ok(b"\x61\0".to_vec()));
    let wide = [&b"\x61"[..], &b"\x7F".repeat(500), b"\0"].concat();
    assert_eq!(to_text(&wide).map(|text| text.len()), Ok(4 * 500 + 2));
    assert_eq!(to_text(&b"\x64\0".repeat(500)), Ok(b"d 0\n".repeat(500)));
}

/// Proofs of solvers: the text back is the text, the binary back the same bytes, and the check says the same of both but for the place.
#[test]
fn there_and_back() {
    let mut workspace = Workspace::new(4_096).unwrap();
    for (formula, text, line) in OUTSIDE {
        let binary = to_binary(text).unwrap();
        assert_eq!(to_text(&binary).as_deref(), Ok(text));
        assert_eq!(to_binary(&to_text(&binary).unwrap()).as_ref(), Ok(&binary));
        let [read, kept] = [(Mode::TEXT, text), (Mode::BINARY, &binary[..])].map(|(mode, proof)| {
            let verdict = workspace.check(mode, formula, proof);
            let members: Vec<_> =
                (0..).map_while(|place| Some((workspace.member(place)?, workspace.is_struck(place)?))).collect();
            (verdict, members, workspace.table().clone())
        });
        assert_eq!(read.0.to_string(), line);
        assert_eq!((kept.0.number, kept.0.place), (Number::Refuted, binary.len()));
        let same =
            |verdict: cablesalak::Verdict| (verdict.lines, verdict.rounds, verdict.count, verdict.peak, verdict.text);
        assert_eq!(same(read.0), same(kept.0));
        assert!(read.1 == kept.1 && read.2 == kept.2);
    }
}
