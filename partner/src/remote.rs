//! Sangolid's C interface in a program of its own, for an archive of another processor: calls go through its pipes.

use std::cell::RefCell;
use std::io::{self, BufReader, BufWriter, Read, Write};
use std::process::{ChildStdin, ChildStdout, Command, Stdio};

use crate::compare::Other;

/// The functions, by the numbers that `remote/serve.c` gives them.
const RUN: u64 = 0;
const CHECK: u64 = 1;
const HEX: u64 = 2;

/// The areas of a call: words (state or answer), code or text, constants, bytes (data, marks or code).
type Areas<'a> = (&'a mut [u32], &'a [u8], &'a [u8], &'a mut [u8]);

/// The program `remote/serve.c`, running.
pub struct Remote {
    pipes: RefCell<(BufWriter<ChildStdin>, BufReader<ChildStdout>)>,
}

impl Remote {
    /// Starts the program; the command's first word is what runs it.
    pub fn start(command: &[&str]) -> Result<Remote, String> {
        let mut child = Command::new(command[0])
            .args(&command[1..])
            .stdin(Stdio::piped())
            .stdout(Stdio::piped())
            .spawn()
            .map_err(|error| format!("{}: {error}", command[0]))?;
        let to = child.stdin.take().expect("its input is a pipe");
        let from = child.stdout.take().expect("its output is a pipe");
        Ok(Remote { pipes: RefCell::new((BufWriter::new(to), BufReader::new(from))) })
    }

    /// Makes one call: sends the areas, and takes back the number, the words and the bytes.
    fn ask(&self, function: u64, (words, code, constants, bytes): Areas, budget: u64) -> io::Result<u32> {
        let (to, from) = &mut *self.pipes.borrow_mut();
        let lengths = [words.len(), code.len(), constants.len(), bytes.len()].map(|length| length as u64);
        for number in [function].into_iter().chain(lengths).chain([budget]) {
            to.write_all(&number.to_le_bytes())?;
        }
        for word in words.iter() {
            to.write_all(&word.to_le_bytes())?;
        }
        to.write_all(code)?;
        to.write_all(constants)?;
        to.write_all(bytes)?;
        to.flush()?;
        let number = read_word(from)?;
        for word in words {
            *word = read_word(from)?;
        }
        from.read_exact(bytes)?;
        Ok(number)
    }

    /// Makes one call, or ends the whole comparison where the program doesn't answer.
    fn call(&self, function: u64, areas: Areas, budget: u64) -> u32 {
        self.ask(function, areas, budget).unwrap_or_else(|error| {
            eprintln!("Sangolid's program doesn't answer: {error}");
            std::process::exit(2)
        })
    }
}

/// The next word of an answer.
fn read_word(from: &mut impl Read) -> io::Result<u32> {
    let mut bytes = [0; 4];
    from.read_exact(&mut bytes)?;
    Ok(u32::from_le_bytes(bytes))
}

impl Other for Remote {
    fn run(&self, state: &mut [u32], code: &[u8], constants: &[u8], area: &mut [u8], budget: u64) -> u32 {
        self.call(RUN, (state, code, constants, area), budget)
    }

    fn check(&self, code: &[u8], marks: &mut [u8], answer: &mut [u32]) -> u32 {
        self.call(CHECK, (answer, code, &[], marks), 0)
    }

    fn hex(&self, text: &[u8], code: &mut [u8], answer: &mut [u32]) -> u32 {
        self.call(HEX, (answer, text, &[], code), 0)
    }
}
