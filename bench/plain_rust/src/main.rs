//! What `silo steps`, `silo answer` and `silo serve` do, in plain Rust: a program to measure `silo` against.
//!
//! It is written from docs/formats.md, docs/steps.md and docs/program.md, with nothing proved, and as an engineer would write it who
//! wants it quick: names have places in tables, states are changed in place, and workers have no lock between them. It keeps
//! the steps that were done and the replies, as `silo` does; with `--forget` it keeps neither. It has no journal and no folder of
//! data. README.md says which file has what.

mod answer;
mod codes;
mod json;
mod kinds;
mod line;
mod names;
mod reply;
mod serve;
mod silo;
mod stream;
mod value;
mod words;

use line::read_line;
use reply::{write_refusal, write_reply, NOT_NOW};
use silo::{Setup, Silo};
use std::io;
use std::process::ExitCode;
use stream::{answer_lines, TooMuchInput};
use words::{Command, Words};

const MAX_LINES: u64 = 1_000_000;
const MAX_ANSWERED_LINES: u64 = 1_073_741_824;

fn run_lines(setup: &Setup, sends: Option<u32>) -> io::Result<Result<(), TooMuchInput>> {
    let mut silo = Silo::new(setup);
    let most = if sends.is_some() { MAX_ANSWERED_LINES } else { MAX_LINES };
    let done = answer_lines(most, |line, out| {
        let said = match read_line(line) {
            Ok(said) if sends.is_none() || answer::is_asked(&said) => said,
            Ok(_) => return write_refusal(codes::NOT_A_REQUEST, out),
            Err(code) => return write_refusal(code, out),
        };
        let before = silo.replies.len();
        let is_done = match sends {
            Some(most) => answer::answer(&mut silo, said, most),
            None => silo.take(said),
        };
        if !is_done {
            out.extend_from_slice(NOT_NOW);
        }
        for reply in &silo.replies[before..] {
            write_reply(&silo, reply, out);
        }
        if !setup.keeps {
            silo.replies.clear();
        }
    });
    // the process ends soon, and gives its memory back at once
    std::mem::forget(silo);
    done
}

fn main() -> ExitCode {
    let words = match Words::read(std::env::args().skip(1)) {
        Ok(words) => words,
        Err(why) => {
            eprintln!("{why}");
            return ExitCode::from(2);
        }
    };
    let done = match words.command {
        Command::Steps => run_lines(&words.setup, None),
        Command::Answer { sends } => run_lines(&words.setup, Some(sends)),
        Command::Serve { workers } => serve::serve(&words.setup, workers, MAX_LINES as usize),
    };
    match done {
        Ok(Ok(())) => ExitCode::SUCCESS,
        Ok(Err(TooMuchInput)) => {
            eprintln!("silo: too much input");
            ExitCode::FAILURE
        }
        Err(fault) => {
            eprintln!("plain_rust: {fault}");
            ExitCode::FAILURE
        }
    }
}
