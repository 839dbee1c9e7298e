// The program: records from a stream, a line for each, and then the answers.
use super::Refusal;
use super::boards::Boards;
use super::record::{self, Record};
use super::recovery::{Offer, Recovery};
use std::io::{self, BufWriter, Read, Write};

// A part of the input, from `start` on, that always holds a whole record if the input does.
struct Window<R> {
    input: R,
    bytes: Vec<u8>,
    start: usize,
    end: usize,
    finished: bool,
}

impl<R: Read> Window<R> {
    fn new(input: R) -> Self {
        Window { input, bytes: vec![0; 65_536], start: 0, end: 0, finished: false }
    }

    // Moves what is left to the front, and reads until the window is full or the input ends.
    fn fill(&mut self) -> io::Result<()> {
        self.bytes.copy_within(self.start..self.end, 0);
        (self.start, self.end) = (0, self.end - self.start);
        while self.end < self.bytes.len() && !self.finished {
            match self.input.read(&mut self.bytes[self.end..]) {
                Ok(0) => self.finished = true,
                Ok(count) => self.end += count,
                Err(error) if error.kind() == io::ErrorKind::Interrupted => {}
                Err(error) => return Err(error),
            }
        }
        Ok(())
    }

    // The next record, or nothing where the input ends between records.
    fn next(&mut self, roster: &mut Vec<u32>) -> io::Result<Option<Result<Record, Refusal>>> {
        loop {
            let outcome = record::read(&self.bytes[self.start..self.end], Boards::OLD, roster);
            if outcome == Err(1) && !self.finished {
                self.fill()?;
                continue;
            }
            if self.start == self.end {
                return Ok(None);
            }
            if let Ok(record) = outcome {
                self.start += record.length;
            }
            return Ok(Some(outcome));
        }
    }
}

pub fn run(input: impl Read, output: impl Write) -> io::Result<()> {
    let mut window = Window::new(input);
    let mut output = BufWriter::with_capacity(16_384, output);
    let mut roster = Vec::with_capacity(128);
    let mut recovery: Option<Recovery> = None;
    let mut number = 0u64;
    while let Some(outcome) = window.next(&mut roster)? {
        number += 1;
        let record = match outcome {
            Ok(record) => record,
            Err(refusal) => {
                writeln!(output, "record {number} refused {refusal}")?;
                break;
            }
        };
        let recovery = recovery.get_or_insert_with(|| Recovery::new(&roster));
        match recovery.judge(&record, &roster) {
            Ok(Offer::Taken) => writeln!(output, "record {number} taken")?,
            Ok(Offer::Repeated) => writeln!(output, "record {number} repeated")?,
            Err(refusal) => writeln!(output, "record {number} refused {refusal}")?,
        }
    }
    match recovery {
        Some(recovery) => list(&recovery, &mut output)?,
        None => writeln!(output, "no records")?,
    }
    output.flush()
}

fn list(recovery: &Recovery, output: &mut impl Write) -> io::Result<()> {
    let mut answers = vec![0; recovery.roster.len()];
    recovery.list(&mut answers).expect("a byte for each place");
    for (serial, answer) in recovery.roster.iter().zip(answers) {
        writeln!(output, "{serial} {}", ["not", "last", "open"][answer as usize])?;
    }
    writeln!(output, "whole {}", if recovery.settled() { "settled" } else { "open" })
}
