//! The lines of the standard input one by one, and what is written to the standard output.

use crate::line::MAX_LINE;
use std::cell::RefCell;
use std::io::{self, BufRead, BufReader, Read, Write};
use std::rc::Rc;

const INPUT_BYTES: usize = 65_536;
const OUTPUT_BYTES: usize = 65_536;

/// What is to be written, which goes out at the latest before the program waits for more input.
pub struct Output {
    pub bytes: Vec<u8>,
}

impl Output {
    pub fn flush(&mut self) -> io::Result<()> {
        io::stdout().lock().write_all(&self.bytes)?;
        self.bytes.clear();
        Ok(())
    }
}

struct Flushing {
    output: Rc<RefCell<Output>>,
}

impl Read for Flushing {
    fn read(&mut self, room: &mut [u8]) -> io::Result<usize> {
        self.output.borrow_mut().flush()?;
        io::stdin().lock().read(room)
    }
}

pub struct TooMuchInput;

/// Writes what `answer` says of each line that isn't empty, as it comes. There may be so many lines.
pub fn answer_lines(most: u64, mut answer: impl FnMut(&[u8], &mut Vec<u8>)) -> io::Result<Result<(), TooMuchInput>> {
    let output = Rc::new(RefCell::new(Output { bytes: Vec::with_capacity(2 * OUTPUT_BYTES) }));
    let mut input = BufReader::with_capacity(INPUT_BYTES, Flushing { output: output.clone() });
    let mut line = Vec::new();
    let mut count = 0;
    loop {
        line.clear();
        // one byte more than a line may have, so that it shows
        if input.by_ref().take(MAX_LINE as u64 + 1).read_until(b'\n', &mut line)? == 0 {
            break;
        }
        count += 1;
        if count > most {
            output.borrow_mut().flush()?;
            return Ok(Err(TooMuchInput));
        }
        if line.last() == Some(&b'\n') {
            line.pop();
        } else if line.len() > MAX_LINE {
            input.skip_until(b'\n')?;
        }
        if line.is_empty() {
            continue;
        }
        let mut output = output.borrow_mut();
        answer(&line, &mut output.bytes);
        if output.bytes.len() >= OUTPUT_BYTES {
            output.flush()?;
        }
    }
    output.borrow_mut().flush()?;
    Ok(Ok(()))
}
