//! The program that asks case lines of the product's library, and the check
//! of what it prints.

use std::collections::VecDeque;
use std::io::{BufRead, BufReader, BufWriter, Write};
use std::process::{Child, ChildStdin, ChildStdout, Stdio};
use std::sync::mpsc::{sync_channel, Receiver, SyncSender, TrySendError};
use std::thread::{self, JoinHandle};

use crate::root;

pub const PROGRAM: &str = "target/c/cases";

const BUFFER: usize = 65_536;
/// So many lines run ahead of what was read; far more than a program keeps
/// back before it prints.
const IN_FLIGHT: usize = 65_536;
/// How many lines a message shows, and how much of each.
const SHOWN_LINES: usize = 12;
const SHOWN: usize = 400;

/// Lines run ahead of what is printed, which a thread of its own checks.
pub struct Wire {
    child: Child,
    input: BufWriter<ChildStdin>,
    expected: SyncSender<Vec<u8>>,
    checker: JoinHandle<Result<(), String>>,
}

impl Wire {
    pub fn open() -> Wire {
        let mut child = root::program(PROGRAM)
            .stdin(Stdio::piped())
            .stdout(Stdio::piped())
            .spawn()
            .expect("the program starts");
        let input = child.stdin.take().expect("a pipe");
        let output = child.stdout.take().expect("a pipe");
        let (expected, lines) = sync_channel(IN_FLIGHT);
        Wire {
            child,
            input: BufWriter::with_capacity(BUFFER, input),
            expected,
            checker: thread::spawn(move || check(output, lines)),
        }
    }

    /// Sends a line with what must be printed for it; false when a difference
    /// was found.
    pub fn send(&mut self, line: &[u8], expected: Vec<u8>) -> bool {
        let sent = self.input.write_all(line).is_ok() && self.input.write_all(b"\n").is_ok();
        sent && match self.expected.try_send(expected) {
            Ok(()) => true,
            // what is waited for must have gone out
            Err(TrySendError::Full(expected)) => {
                self.input.flush().is_ok() && self.expected.send(expected).is_ok()
            }
            Err(TrySendError::Disconnected(_)) => false,
        }
    }

    /// Waits for all that is printed; a difference ends the test.
    pub fn close(self) {
        if let Err(difference) = self.settled() {
            panic!("{difference}");
        }
    }

    fn settled(self) -> Result<(), String> {
        let Wire {
            mut child,
            input,
            expected,
            checker,
        } = self;
        drop(input);
        drop(expected);
        checker.join().expect("the checker ends")?;
        let status = child.wait().map_err(|error| error.to_string())?;
        match status.success() {
            true => Ok(()),
            false => Err(format!("{PROGRAM} ended with {status}")),
        }
    }
}

fn check(output: ChildStdout, lines: Receiver<Vec<u8>>) -> Result<(), String> {
    let mut output = BufReader::with_capacity(BUFFER, output);
    let mut given = Vec::new();
    let mut before = VecDeque::new();
    for expected in lines {
        given.clear();
        let read = output.read_until(b'\n', &mut given);
        let ended = given.pop_if(|last| *last == b'\n').is_some();
        if read.is_err() || !ended || given != expected {
            return Err(difference(&before, &expected, &given));
        }
        if before.len() == SHOWN_LINES {
            before.pop_front();
        }
        before.push_back(expected);
    }
    match output.fill_buf() {
        Ok([]) => Ok(()),
        _ => Err(format!("{PROGRAM} says more than it was asked")),
    }
}

fn difference(before: &VecDeque<Vec<u8>>, expected: &[u8], given: &[u8]) -> String {
    let before: Vec<String> = before.iter().map(|line| head(line, SHOWN)).collect();
    format!(
        "{PROGRAM} differs\n{}\nexpected {}\ngiven    {}",
        before.join("\n"),
        head(expected, SHOWN),
        head(given, SHOWN)
    )
}

/// What a message shows of some bytes.
pub fn head(bytes: &[u8], most: usize) -> String {
    let shown = &bytes[..bytes.len().min(most)];
    String::from_utf8_lossy(shown).into_owned()
}
