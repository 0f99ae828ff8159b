//! The numbers themselves.

use cablesalak::{NoSuchNumber, Number};
use std::error::Error;

#[test]
fn each_has_its_code() {
    let codes: Vec<u8> = (0..=35).collect();
    assert!(Number::all().map(Number::code).eq(codes.iter().copied()));
    for code in 0..=u8::MAX {
        match Number::try_from(code) {
            Ok(number) => assert_eq!(number.code(), code),
            Err(none) => assert!(none == NoSuchNumber(code) && !codes.contains(&code)),
        }
    }
}

/// Both can be handed on with `?`, and say what they are.
#[test]
fn each_is_an_error() {
    let errors: [Box<dyn Error>; 2] = [Box::new(Number::NotShown), Box::new(NoSuchNumber(200))];
    assert_eq!(errors.map(|error| error.to_string()), ["not shown: no conflict", "there is no number 200"]);
}
