//! Links the archives that `rust/run archives` writes: `export`, `explain`, `nodes` and `node_check`. No other crate links them.

mod link;

fn main() {
    let mut names = vec!["export", "explain"];
    if std::env::var_os("CARGO_FEATURE_NODES").is_some() {
        names.extend(["nodes", "node_check"]);
    }
    link::archives(&names);
}
