//! A filter of the line protocol as a child process.

use std::io::{BufRead, BufReader, Write};
use std::process::{Child, ChildStdin, ChildStdout, Command, Stdio};
use std::thread;
use std::time::Duration;

pub struct Filter {
    child: Child,
    input: Option<ChildStdin>,
    output: BufReader<ChildStdout>,
}

impl Filter {
    /// Starts the program of a command line, words parted by spaces.
    pub fn start(command: &str) -> Self {
        let mut words = command.split_whitespace();
        let program = words.next().expect("a filter wants a command");
        let mut child = Command::new(program)
            .args(words)
            .stdin(Stdio::piped())
            .stdout(Stdio::piped())
            .spawn()
            .unwrap_or_else(|error| panic!("{command}: {error}"));
        let input = child.stdin.take();
        let output = BufReader::with_capacity(1 << 16, child.stdout.take().unwrap());
        Filter { child, input, output }
    }

    /// The answers to commands: fewer than were asked where the filter ends early.
    pub fn ask(&mut self, commands: &[String]) -> Vec<String> {
        let (input, output) = (self.input.as_mut().unwrap(), &mut self.output);
        // Asked and read at once: a filter that waits for its answers to be read takes no more commands.
        thread::scope(|scope| {
            scope.spawn(move || {
                for command in commands {
                    // A filter that has ended shows in the answers.
                    if writeln!(input, "{command}").is_err() {
                        return;
                    }
                }
                let _ = input.flush();
            });
            output.lines().take(commands.len()).map_while(Result::ok).collect()
        })
    }

    /// The processor time that the filter's threads have taken, from Linux's count of it.
    pub fn busy(&self) -> Duration {
        let folder = format!("/proc/{}/task", self.child.id());
        let tasks = std::fs::read_dir(folder).into_iter().flatten().flatten();
        let nanoseconds = tasks.map(|task| {
            let text = std::fs::read_to_string(task.path().join("schedstat")).unwrap_or_default();
            text.split(' ').next().and_then(|word| word.parse::<u64>().ok()).unwrap_or(0)
        });
        Duration::from_nanos(nanoseconds.sum())
    }

    /// Ends the filter: whether it ended well.
    pub fn end(mut self) -> bool {
        drop(self.input.take());
        self.child.wait().is_ok_and(|status| status.success())
    }
}
