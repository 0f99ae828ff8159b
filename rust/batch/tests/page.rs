//! `refute-page` as it is started: the page's structure, what it says, and that hostile words stay words.

mod common;

use common::{all, copy, folder, start, until, EXAMPLES, PAGE};
use std::fs;
use std::path::Path;
use std::process::{Command, Output};

fn page(folder: &Path, words: &[&str]) -> String {
    let Output { status, stdout, stderr } = Command::new(PAGE).current_dir(folder).args(words).output().unwrap();
    assert!(status.success(), "{}", String::from_utf8_lossy(&stderr));
    String::from_utf8(stdout).unwrap()
}

/// Elements that have no end.
const VOID: [&str; 4] = ["!DOCTYPE", "meta", "br", "link"];

/// Every element is closed, in order; gives the names of all elements.
fn elements(page: &str) -> Vec<String> {
    let (mut open, mut names) = (Vec::new(), Vec::new());
    for part in page.split('<').skip(1) {
        let (tag, _) = part.split_once('>').expect("a tag that ends");
        let name = tag.trim_start_matches('/').split([' ', '\n', '/']).next().unwrap().to_string();
        if let Some(closed) = tag.strip_prefix('/') {
            assert_eq!(open.pop().as_deref(), Some(closed), "closed in order");
        } else if !VOID.contains(&name.as_str()) && !tag.ends_with('/') {
            open.push(name.clone());
        }
        names.push(name);
    }
    assert_eq!(open, Vec::<String>::new());
    names
}

/// It has no script and takes nothing from outside; every link leads to a place of its own, and no two places share a name.
fn is_sound(page: &str) {
    let names = elements(page);
    let known = "!DOCTYPE html head meta title style body main h1 h2 h3 h4 p ul li b strong table caption thead tbody tr th td a article section dl dt dd \
                 br span code mark details summary figure figcaption svg desc path text rect circle";
    for name in &names {
        assert!(known.split(' ').any(|one| one == name), "the element {name}");
    }
    assert!(page.contains("content=\"default-src 'none'; style-src 'unsafe-inline'\""));
    let values = |before: &str| -> Vec<String> {
        page.split(before).skip(1).map(|rest| rest.split('"').next().unwrap().to_string()).collect()
    };
    let (ids, mut sorted) = (values(" id=\""), values(" id=\""));
    sorted.sort();
    sorted.dedup();
    assert_eq!(ids.len(), sorted.len(), "a name is given once");
    for link in values(" href=\"") {
        assert!(ids.contains(&link.trim_start_matches('#').to_string()), "{link}");
    }
    for outside in [" src=", "url(", "@import", "http:", "https:", " on"] {
        let found = page.split('<').any(|part| part.split('>').next().unwrap().contains(outside));
        assert!(!found, "{outside}");
    }
}

#[test]
fn the_demonstration() {
    let folder = folder("page");
    let results = folder.join("results");
    let results = results.to_str().unwrap();
    all(Path::new(EXAMPLES), &["-q", "-o", results, "batch"]);
    let page = page(Path::new(EXAMPLES), &[results]);
    is_sound(&page);
    let wanted = [
        "<b>3</b> ✓ refuted",
        "<b>2</b> ✗ not shown",
        "<b>1</b> – without a verdict",
        "<title>Refutations: 3 of 6 questions</title>",
        ">Can a worker be in both bands of the scheme at once?</a>",
        "There is no proof for this question.",
        "-3 -4 <mark>9</mark> 0",
        "if “in band 1”, then one of “licensed”, “supervised”",
        "It claims: all of “has a passport”, “has a work permit”, “has a tax card”, “has a bank letter”.",
        "Its witness: not “Ann holds the keys”.",
        "<mark>61 00</mark>",
        "In words: the contradiction itself.",
        "– No verdict: nobody has handed in a proof.",
        "<code>0 87 5 4 36</code>, records, run 1",
        "SHA-256 <code>acf7ab47fc8d5827e90c1d5950aacff1054ee9e92dc1df5afda61c2249c793dd</code>",
        "<strong>Nobody shows here</strong>",
        "The witness does not make the line true: it is false where no fact is true.",
        "Where the line is false, these literals follow by unit propagation:<br>\nround 1: 5 (“a newcomer”)<br>",
    ];
    for text in wanted {
        assert!(page.contains(text), "{text}");
    }
    assert!(page.find("✗ not shown</td>") < page.find("✓ refuted</td>"), "what is not refuted comes first");
    assert!(!page.contains("What is missing"));
    assert_eq!(elements(&page).iter().filter(|name| *name == "svg").count() % 2, 0);
}

#[test]
fn hostile_words_stay_words() {
    let folder = folder("hostile-page");
    let comments = "c question </style></title><script>alert(1)</script>\nc fact 1 <img src=x onerror=alert(1)> \u{202e}\u{0}'\"\n\
                    c ]]><!-- --> &lt; &#60;script\n";
    fs::write(folder.join("a<b>&\"'.cnf"), format!("{comments}p cnf 1 2\n1 0\n-1 0\n")).unwrap();
    fs::write(folder.join("a<b>&\"'.proof"), b"\x4E\x01\0\0\x01\0\x54\x01\x50\x02\0\x45").unwrap();
    fs::write(folder.join("a<b>&\"'-2.drat"), "1 0\nc <b>\n<script> 0\n").unwrap();
    fs::write(folder.join("a<b>&\"'-3.bdrat"), b"\x61<script>").unwrap();
    all(&folder, &["-q", "-o", "results", "."]);
    let page = page(&folder, &["results"]);
    is_sound(&page);
    assert!(page.contains("&lt;/style&gt;&lt;/title&gt;&lt;script&gt;alert(1)&lt;/script&gt;"));
    assert!(page.contains("a&lt;b&gt;&amp;&quot;&#39;.cnf"));
    assert!(!page.contains(['\u{202e}', '\0']));
    // A results file that is hostile itself.
    let record = r#"{"type":"pair","formula":"<i>","proof":"<u>","form":"</p>","outcome":"refused","number":1e300,"place":99999999999999,"file":"<s>","formula_sha256":"<b>"}"#;
    let run =
        r#"{"type":"run","checker":"<b>","commit":"</table>","archive_sha256":"\"><script>","places":-1,"began":[]}"#;
    let fault = r#"{"type":"fault","what":"<script>"}"#;
    let lacks = r#"{"type":"pair","formula":"f","proof":"p","outcome":"not twice","why":"<script>"}"#;
    let second =
        r#"{"type":"pair","formula":"g","proof":"p","outcome":"disagreed","second":{"number":"<i>","place":-1}}"#;
    let lines = [run, record, fault, lacks, second, "[[[", record, "\u{0}", "{\"type\":\"pair\"}", ""];
    fs::write(folder.join("other"), lines.join("\n")).unwrap();
    is_sound(&self::page(&folder, &["other", "results"]));
}

#[test]
fn what_is_missing_is_told() {
    let folder = folder("missing-page");
    copy(&folder, &["case-a.cnf", "case-a.proof"]);
    all(&folder, &["-q", "-o", "results", ".", "no-such-folder"]);
    assert!(page(&folder, &["results"]).contains("<li>Not read: no-such-folder: No such file or directory"));
    // An interrupted run.
    common::slow(&folder);
    let mut run = start(&folder, &["-t", "0", "-r", "results", "."]);
    until("the run's record", || common::records(&folder.join("results"), "run") == 2);
    run.kill().unwrap();
    run.wait().unwrap();
    let said = page(&folder, &["results"]);
    assert!(said.contains("<li>Run 2 was interrupted"));
    assert!(!said.contains("no-such-folder"), "only the last run's");
    // A proof whose check did not come to its end stays with the others of its formula.
    fs::copy(folder.join("slow.proof"), folder.join("slow-2.proof")).unwrap();
    fs::write(folder.join("slow.proof"), b"\x45").unwrap();
    fs::write(
        folder.join("alone.cnf"),
        format!("c question Alone?\n{}", fs::read_to_string(folder.join("slow.cnf")).unwrap()),
    )
    .unwrap();
    fs::copy(folder.join("slow-2.proof"), folder.join("alone.proof")).unwrap();
    all(&folder, &["-t", "1", "-o", "limited", "."]);
    let limited = page(&folder, &["limited"]);
    is_sound(&limited);
    assert!(limited.contains("<title>Refutations: 1 of 3 questions</title>"));
    assert_eq!(limited.matches("The time limit was reached.").count(), 2);
    assert!(limited.contains("<h3>Alone?</h3>"));
    // A file that has changed since is not quoted.
    assert!(said.contains("always one of"));
    fs::write(folder.join("case-a.cnf"), "p cnf 1 1\n1 0\n").unwrap();
    assert!(!page(&folder, &["results"]).contains("always one of"));
}

/// The cause is told only of a refusal that the library repeats, of the bytes that were checked, and not where the check took long.
#[test]
fn causes() {
    let folder = folder("causes");
    fs::write(folder.join("a.cnf"), "c fact 2 <b>\np cnf 2 2\n1 2 0\n-1 2 0\n").unwrap();
    fs::write(folder.join("a.proof"), b"\x4E\x01\0\0\x01\0\x52\x02\0\x45").unwrap();
    all(&folder, &["-q", "-o", "results", "."]);
    let text = fs::read_to_string(folder.join("results")).unwrap();
    let page_of = |name: &str, text: &str| {
        fs::write(folder.join(name), text).unwrap();
        let made = page(&folder, &[name]);
        is_sound(&made);
        made
    };
    let told = "Where the line is false, these literals follow by unit propagation:<br>\nround 1: 2 (“&lt;b&gt;”)<br>";
    assert!(page_of("same", &text).contains(told));
    // Another number or place than the library's, and a slow check.
    for (from, to) in [("\"number\":19", "\"number\":18"), ("\"place\":6", "\"place\":7")] {
        assert_ne!(text.replace(from, to), text);
        assert!(!page_of("other", &text.replace(from, to)).contains("unit propagation:<br>"));
    }
    let seconds = text.split("\"seconds\":").nth(1).unwrap().split('}').next().unwrap();
    let slow = page_of("slow", &text.replace(&format!("\"seconds\":{seconds}"), "\"seconds\":16.8"));
    assert!(slow.contains("The check took long") && !slow.contains("unit propagation:<br>"));
    // A small stack; then another file.
    let small = "ulimit -s 256; exec \"$0\" results";
    let output = Command::new("bash").current_dir(&folder).args(["-c", small, PAGE]).output().unwrap();
    assert!(output.status.success() && String::from_utf8(output.stdout).unwrap().contains(told));
    fs::write(folder.join("a.proof"), b"\x52\0\0\x45").unwrap();
    assert!(!page_of("same", &text).contains("unit propagation:<br>"));
}

/// A clause of a DRAT proof is drawn too; a long name is cut in the picture and whole in the words.
#[test]
fn pictures() {
    let folder = folder("pictures");
    let name = "ä".repeat(40);
    let formula = format!("c fact 1 {name}\np cnf 2 2\n1 2 0\n-1 2 0\n");
    fs::write(folder.join("a.cnf"), formula).unwrap();
    fs::write(folder.join("a-1.drat"), "1 -2 0\n").unwrap();
    fs::write(folder.join("a-2.bdrat"), b"\x61\x03\0").unwrap();
    fs::write(folder.join("a-3.proof"), b"\x58\x03\0\0\0\0\0\0\0\x01\x51\x02\0\x45").unwrap();
    all(&folder, &["-q", "--consequence", "-o", "results", "."]);
    let page = page(&folder, &["results"]);
    is_sound(&page);
    assert_eq!(page.matches("<svg ").count(), 3);
    assert_eq!(page.matches(&format!(">“{}…”</text>", "ä".repeat(31))).count(), 3);
    assert!(page.contains(&format!("In words: if fact 2, then “{name}”.")));
    assert!(page.contains(&format!("It claims: an odd number of “{name}”, fact 2.")));
}

/// Results by two methods, and a results file in which they disagree: the proved archives never do, so it is made of one that agrees.
#[test]
fn two_methods() {
    let folder = folder("twice-page");
    copy(&folder, &["case-a.cnf", "case-a.proof", "papers.cnf", "papers.proof"]);
    all(&folder, &["-q", "--twice", "-o", "results", "."]);
    let agreed = page(&folder, &["results"]);
    is_sound(&agreed);
    for text in [
        "<dt>by truth table</dt><dd>the same number, place, lines and rounds</dd>",
        "– not checked by two methods, as it was to be",
        "(over six variables)",
        "all rules, by two methods; 4096 places",
        "archive of the truth table, SHA-256 <code>",
    ] {
        assert!(agreed.contains(text), "{text}");
    }
    assert!(!agreed.contains("disagree"));
    let results = fs::read_to_string(folder.join("results")).unwrap();
    let second = "\"second\":{\"number\":19,\"place\":9,\"lines\":1,\"rounds\":0}";
    let other = results.replace("\"second\":\"agrees\"", second).replace("\"refuted\",", "\"disagreed\",");
    assert_ne!(other, results);
    fs::write(folder.join("other"), other).unwrap();
    let disagreed = page(&folder, &["other"]);
    is_sound(&disagreed);
    for text in [
        "<title>Refutations: 0 of 2 questions</title>",
        "<li class=\"alarm\"><b>1</b> ‼ methods disagree</li>",
        "‼ No verdict: the two methods disagree",
        "<code>0 12 2 1 10</code>, records, run 1",
        "<dt>by truth table</dt><dd><code>19 9 1 0</code></dd>",
    ] {
        assert!(disagreed.contains(text), "{text}");
    }
    assert!(disagreed.find("‼ disagree</td>") < disagreed.find("– no verdict</td>"), "it comes first");
    // By one method before: both results are on the page.
    all(&folder, &["-q", "-o", "once", "."]);
    let both = page(&folder, &["once", "results"]);
    assert!(both.contains("<title>Refutations: 2 of 2 questions</title>"));
    assert_eq!(both.matches("<section class=\"").count(), 4);
    assert!(both.contains("checked the proofs: 2 in all."), "a proof that was checked twice is one");
}

#[test]
fn statuses() {
    let folder = folder("page-statuses");
    let ends = |words: &[&str]| Command::new(PAGE).current_dir(&folder).args(words).output().unwrap().status.code();
    assert_eq!([ends(&[]), ends(&["--help"]), ends(&["no-such-file"])], [Some(2), Some(2), Some(3)]);
    fs::write(folder.join("empty"), "").unwrap();
    assert_eq!([ends(&["empty"]), ends(&["--", "empty"])], [Some(0), Some(0)]);
    let full = Command::new("bash").current_dir(&folder).args(["-c", "exec \"$0\" empty >/dev/full", PAGE]).status();
    assert_eq!(full.unwrap().code(), Some(3));
}
