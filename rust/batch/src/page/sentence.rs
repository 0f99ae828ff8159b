//! The sentence for a number. The page for operators has one for each; it is the one that the page shows.

const OPERATING: &str = include_str!("../../../../docs/OPERATING.md");

/// The second column of the number's row; nothing where there is no such row.
pub fn sentence(number: u64) -> &'static str {
    let cells = |row: &'static str| row.split('|').map(str::trim).collect::<Vec<_>>();
    let rows = OPERATING.lines().filter(|line| line.starts_with("| ")).map(cells);
    rows.filter(|cells| cells.len() > 3).find(|cells| cells[1].parse() == Ok(number)).map_or("", |cells| cells[2])
}

#[cfg(test)]
mod tests {
    use super::*;

    #[test]
    fn numbers_have_sentences() {
        for number in (0..=u8::MAX).filter(|&number| batch::check::meaning(number).is_some()) {
            assert!(sentence(number.into()).ends_with('.'), "docs/OPERATING.md has no sentence for {number}");
        }
        assert!(sentence(19).contains("no conflict"));
        assert_eq!(sentence(255), "");
    }
}
