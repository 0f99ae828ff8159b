//! Links the archive that `rust/run archives small_export` writes. No other crate links it.

#[path = "../cablesalak/link.rs"]
mod link;

fn main() {
    link::archives(&["small_export"]);
}
