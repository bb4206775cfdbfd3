//! `second plan`, `second readlog`, `second cases` and `second bench`.

use std::io::{self, BufWriter, Read, Write};
use std::process::ExitCode;

use second::units::Board;
use second::{bench, cases, listing, log};

fn main() -> ExitCode {
    let arguments: Vec<String> = std::env::args().skip(1).collect();
    let done = match arguments.iter().map(String::as_str).collect::<Vec<_>>()[..] {
        ["plan"] => print(listing::plan, u64::MAX),
        // one byte more is enough to see that it is too long
        ["readlog"] => print(listing::readlog, log::LONGEST as u64 + 1),
        ["cases"] => run_cases(),
        ["bench", job, times] => run_bench(job, times),
        _ => {
            eprintln!("usage: second plan | readlog | cases | bench JOB TIMES");
            return ExitCode::from(2);
        }
    };
    match done {
        Ok(()) => ExitCode::SUCCESS,
        Err(error) => {
            eprintln!("{error}");
            ExitCode::FAILURE
        }
    }
}

/// Prints a listing of the input, of which so many bytes are read at most.
fn print(listing: impl Fn(&[u8]) -> String, most: u64) -> io::Result<()> {
    let mut input = Vec::new();
    io::stdin().lock().take(most).read_to_end(&mut input)?;
    io::stdout().write_all(listing(&input).as_bytes())
}

fn run_cases() -> io::Result<()> {
    let mut output = BufWriter::new(io::stdout().lock());
    cases::run(io::stdin().lock(), &mut output)?;
    output.flush()
}

fn run_bench(job: &str, times: &str) -> io::Result<()> {
    let mut output = io::stdout();
    match job {
        "hex" => return output.write_all(&bench::full_file(Board::Short)),
        "hex-long" => return output.write_all(&bench::full_file(Board::Long)),
        _ => {}
    }
    let times = times.parse().map_err(io::Error::other)?;
    let done = bench::run(job, times).ok_or_else(|| io::Error::other("no such job"))?;
    writeln!(output, "{} {} {}", done.given, done.sum, done.nanoseconds)
}
