//! `bench [--driver COMMAND] [--reference COMMAND] [--buddy PROGRAM] [--only WORD]`, `bench --write FOLDER`
//!
//! Times the proved library and the reference on the same commands in one run, the cost of text taken away, and says what
//! stack a call takes. WORD is `single`, `check`, `drat`, `slow` or `stack`; single calls have a column of BuDDy where it is
//! installed. With `--write` nothing is timed: formula, proof and places of each check in records are written to files of
//! the folder, for tools/speed.py.

mod books;
mod buddy;
mod drat;
mod pairs;
mod rounds;
mod slow;
mod stack;
mod workloads;
mod write;

use compare::filter::Filter;
use std::process::exit;
use std::time::Duration;
use workloads::Workload;

struct Options {
    driver: String,
    reference: String,
    buddy: String,
    only: Option<String>,
    write: Option<String>,
}

fn main() {
    let options = options();
    if let Some(folder) = &options.write {
        write::write_all(folder, &[workloads::check(), slow::all()].concat()).expect("the folder cannot be written to");
        return;
    }
    let wanted = |word: &str| options.only.as_deref().is_none_or(|only| only == word);
    if wanted("single") {
        time_all(&options, &workloads::single(), buddy::start(&options.buddy));
    }
    if wanted("check") {
        time_all(&options, &workloads::check(), None);
    }
    if wanted("drat") {
        time_all(&options, &drat::all(), None);
    }
    if wanted("slow") {
        time_all(&options, &slow::all(), None);
    }
    if wanted("stack") {
        stack::report(&options.driver, &[workloads::single(), workloads::check(), drat::all()].concat());
        for (name, commands) in books::sessions() {
            stack::report_all(&options.driver, &name, &commands);
        }
    }
}

fn options() -> Options {
    let beside = |name: &str| std::env::current_exe().unwrap().with_file_name(name).display().to_string();
    let [driver, reference, buddy] = ["driver", "reference", "buddy"].map(beside);
    let mut options = Options { driver, reference, buddy, only: None, write: None };
    let mut given = std::env::args().skip(1);
    while let Some(word) = given.next() {
        match (word.as_str(), given.next()) {
            ("--driver", Some(command)) => options.driver = command,
            ("--reference", Some(command)) => options.reference = command,
            ("--buddy", Some(program)) => options.buddy = program,
            ("--only", Some(word)) => options.only = Some(word),
            ("--write", Some(folder)) => options.write = Some(folder),
            _ => {
                eprintln!(
                    "usage: bench [--driver COMMAND] [--reference COMMAND] [--buddy PROGRAM] \
                     [--only single|check|drat|slow|stack] [--write FOLDER]"
                );
                exit(2)
            }
        }
    }
    options
}

/// Times the workloads, where there is BuDDy's filter by that too.
fn time_all(options: &Options, workloads: &[Workload], mut buddy: Option<Filter>) {
    let more = if buddy.is_some() { column("BuDDy", "ratio") } else { String::new() };
    println!("{:<56} {:>12} {:>12} {:>8}{more}   answer", "microseconds a call", "library", "reference", "ratio");
    let mut filters = [Filter::start(&options.driver), Filter::start(&options.reference)];
    for workload in workloads {
        let answers = filters.each_mut().map(|filter| answer(filter, &workload.command));
        if answers[0] != answers[1] {
            println!("bench: the answers to {} differ: {:.300} and {:.300}", workload.name, answers[0], answers[1]);
            exit(1);
        }
        let [library, reference] = times(&mut filters, workload);
        let more = buddy.as_mut().map_or(String::new(), |filter| {
            match buddy::time(filter, &workload.name, &workload.command, &answers[0]) {
                Some(time) => column(&format!("{time:.1}"), &format!("{:.2}", library / time)),
                None => column("-", "-"),
            }
        });
        let said = answers[0].split(" |").next().unwrap_or("");
        println!("{:<56} {library:>12.1} {reference:>12.1} {:>8.2}{more}   {said}", workload.name, library / reference);
    }
}

/// BuDDy's time, and the library's by it.
fn column(time: &str, ratio: &str) -> String {
    format!(" {time:>12} {ratio:>8}")
}

fn answer(filter: &mut Filter, command: &str) -> String {
    filter.ask(&[command.to_string()]).pop().unwrap_or_else(|| "(the filter ended)".into())
}

/// Microseconds of processor time that a call takes in each filter, without the cost of text: the least of several turns.
fn times(filters: &mut [Filter; 2], workload: &Workload) -> [f64; 2] {
    let once = filters.each_mut().map(|filter| spent(filter, &workload.command, 1));
    let slow = once.iter().max().unwrap().as_micros().max(1);
    let (repeats, turns) = ((40_000 / slow).clamp(1, 400) as usize, if slow > 500_000 { 1 } else { 7 });
    let mut least = [[Duration::MAX; 2]; 2];
    for _ in 0..turns {
        for (filter, least) in filters.iter_mut().zip(&mut least) {
            least[0] = least[0].min(spent(filter, &workload.command, repeats));
            least[1] = least[1].min(spent(filter, &workload.text, repeats));
        }
    }
    least.map(|[whole, text]| whole.saturating_sub(text).as_nanos() as f64 / 1000.0 / repeats as f64)
}

/// The filter's own processor time for some answers, which a busy machine does not lengthen as it does the clock's.
fn spent(filter: &mut Filter, command: &str, repeats: usize) -> Duration {
    let commands = vec![command.to_string(); repeats];
    let start = filter.busy();
    filter.ask(&commands);
    filter.busy() - start
}
