//! Formulas as clauses and as text: in random layout, or with one fault.

use crate::random::Random;

#[derive(Clone)]
pub struct Formula {
    pub variables: usize,
    pub clauses: Vec<Vec<i32>>,
}

impl Formula {
    /// The plain text: a header and a line for each clause.
    pub fn text(&self) -> Vec<u8> {
        let mut text = format!("p cnf {} {}\n", self.variables, self.clauses.len());
        for clause in &self.clauses {
            for literal in clause {
                text += &format!("{literal} ");
            }
            text += "0\n";
        }
        text.into_bytes()
    }

    /// The tokens after the header.
    fn tokens(&self) -> Vec<String> {
        let closed = self.clauses.iter().flat_map(|clause| clause.iter().copied().chain([0]));
        closed.map(|literal| literal.to_string()).collect()
    }

    fn header(&self) -> String {
        format!("p cnf {} {}", self.variables, self.clauses.len())
    }

    /// The text with comments, blank lines and spaces wherever they may stand.
    pub fn strewn(&self, random: &mut Random) -> Vec<u8> {
        laid_out(random, &self.header(), &self.tokens())
    }

    /// The text with one fault of the numbers 1 to 6.
    pub fn faulty(&self, random: &mut Random) -> Vec<u8> {
        let (mut header, mut tokens) = (self.header(), self.tokens());
        match random.below(7) {
            0 => return improper(random, &header),
            1 | 6 => header = too_large(random, self),
            2 => replace(random, &mut tokens, &NO_NUMBERS),
            3 => replace_beyond(random, &mut tokens, self.variables),
            4 => number_of_clauses(random, &mut tokens),
            _ => leave_open(random, &mut tokens, self.variables),
        }
        laid_out(random, &header, &tokens)
    }
}

/// 3: tokens that are no numbers.
pub const NO_NUMBERS: [&str; 17] =
    ["-0", "00", "01", "-", "--1", "+1", "1x", "x", "c", " c", "\rc", "\tc 1", "1 c", "1-", "-01", "p", "\u{b}"];

const SPACES: [&str; 8] = [" ", " ", " ", "\n", "\n", "\t", "\r\n", "  \r"];

/// What may stand where a line begins, before the header and behind it.
const COMMENTS: [&str; 8] =
    ["c\n", "c\r\n", "comment 1 0\n", "c p cnf 1 1\r\n", "c 0\n", "cc\r1 0\n", "c\t-1 0 c\n", "c c\n\n"];

fn laid_out(random: &mut Random, header: &str, tokens: &[String]) -> Vec<u8> {
    let mut text = String::new();
    for _ in 0..random.below(3) {
        let comment = random.pick(&COMMENTS);
        text += random.pick(&["\n", " \t\r\n", "\r\n", comment, comment, comment]);
    }
    let often = random.pick(&[0, 10, 50]);
    let words: Vec<&str> = header.split(' ').collect();
    text += &words.join(random.pick(&[" ", "  ", "\t", " \t "]));
    text += random.pick(&["\n", "\n", " \n", "\r\n", "\t\r \n"]);
    strew(random, &mut text, tokens, often);
    text.into_bytes()
}

/// Tokens behind a text, with blanks and comment lines; these with the chance of each in percent.
pub fn strew(random: &mut Random, text: &mut String, tokens: &[String], often: usize) {
    comments(random, text, often);
    for token in tokens {
        *text += token;
        *text += random.pick(&SPACES);
        comments(random, text, often);
    }
    if random.percent(30) {
        text.truncate(text.trim_end().len());
    }
}

/// Comment lines at the text's end, if a line begins there, with the chance of each in percent.
fn comments(random: &mut Random, text: &mut String, often: usize) {
    while (text.is_empty() || text.ends_with('\n')) && random.percent(often) {
        *text += random.pick(&COMMENTS);
    }
}

/// 1: no proper header.
fn improper(random: &mut Random, header: &str) -> Vec<u8> {
    let bad = [
        "",
        "\n \t\r\n",
        "c only\n",
        "p cnf 2\n",
        "p cnf\n1 1\n",
        " p cnf 1 1\n1 0\n",
        "pcnf 1 1\n1 0\n",
        "p cnf 01 1\n1 0\n",
        "p cnf -1 1\n",
        "p cnf 1 1 1\n",
        "p cnf 1 1x\n",
        "p cnf +1 1\n",
        " c\np cnf 1 1\n",
        "P cnf 1 1\n",
        "p\rcnf 1 1\n",
        "p cnf 1\r1\n",
        "p CNF 1 1\n",
        "p cnf 1 -0\n",
        "p cnf  1 00\n",
        "p cnf 1,1\n",
        "1 0\n",
        "c\n\nq\n",
        "p cnf 1 1 \u{b}\n",
        "p",
        "p cnf ",
        "p cnf 1 1c\n",
        "p cnf 1 1\rc\n1 0\n",
        "p cnf 1 1 c\n1 0\n",
    ];
    let mut text = random.pick(&bad).to_string();
    if random.percent(40) {
        // A later proper header does not help.
        text = format!("{}\n{header}\n1 0\n", text.trim_end_matches('\n'));
    }
    text.into_bytes()
}

/// 2: over 64 variables or 1,024 clauses.
fn too_large(random: &mut Random, formula: &Formula) -> String {
    let huge = random.pick(&["99999999999999999999999999", "18446744073709551616", "65536", "4294967297"]);
    let variables = random.pick(&["65", "66", "1000", huge]);
    let clauses = random.pick(&["1025", "1026", "9999", huge]);
    match random.below(3) {
        0 => format!("p cnf {variables} {}", formula.clauses.len()),
        1 => format!("p cnf {} {clauses}", formula.variables),
        _ => format!("p cnf {variables} {clauses}"),
    }
}

pub fn replace(random: &mut Random, tokens: &mut Vec<String>, words: &[&str]) {
    let word = random.pick(words).to_string();
    if tokens.is_empty() {
        return tokens.push(word);
    }
    let at = random.below(tokens.len());
    tokens[at] = word;
}

/// 4: a literal beyond so many variables, by one or by far.
pub fn replace_beyond(random: &mut Random, tokens: &mut Vec<String>, variables: usize) {
    let beyond = variables + random.pick(&[1, 2, 10, 1000]);
    let huge = format!("-{}9", beyond * 1_000_000_007);
    let (plain, minus) = (beyond.to_string(), format!("-{beyond}"));
    let words = [plain.as_str(), &minus, &huge, "18446744073709551617", "340282366920938463463374607431768211457"];
    replace(random, tokens, &words);
}

/// 5: clauses too few or too many, whatever the surplus token is.
fn number_of_clauses(random: &mut Random, tokens: &mut Vec<String>) {
    if random.percent(50) && !tokens.is_empty() {
        tokens.pop();
        let last = tokens.iter().rposition(|token| token == "0");
        tokens.truncate(last.map_or(0, |last| last + 1));
    } else {
        tokens.push(random.pick(&["0", "1", "-1", "x", "00", "99", "c", " c", "\rc"]).into());
    }
}

/// 6: the last clause open. An empty one has to get a literal, or too few clauses would be left.
fn leave_open(random: &mut Random, tokens: &mut Vec<String>, variables: usize) {
    tokens.pop();
    if variables > 0 && (random.percent(30) || tokens.last().is_none_or(|token| token == "0")) {
        tokens.push(random.between(1, variables).to_string());
    }
}

#[cfg(test)]
mod tests {
    use super::*;

    /// Without the lines that begin with `c` the layout leaves the header's words and the tokens; comments stand before, between and behind them.
    #[test]
    fn comments_are_whole_lines() {
        let formula = Formula { variables: 3, clauses: vec![vec![1, -2], vec![3], vec![-1, 2, -3]] };
        let words: Vec<String> = formula.header().split(' ').map(String::from).chain(formula.tokens()).collect();
        let mut places = [0; 3];
        for seed in 0..2_000 {
            let text = String::from_utf8(formula.strewn(&mut Random::new(seed))).unwrap();
            let (mut left, mut comments) = (Vec::new(), Vec::new());
            for line in text.split('\n') {
                match line.strip_prefix('c') {
                    Some(_) => comments.push(left.len()),
                    None => left.extend(line.split([' ', '\t', '\r']).filter(|word| !word.is_empty())),
                }
            }
            assert_eq!(left, words);
            for before in comments {
                places[usize::from(before > 0) + usize::from(before == words.len())] += 1;
            }
        }
        assert!(places.iter().all(|&times| times > 100), "{places:?}");
    }
}
