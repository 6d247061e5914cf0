//! Hex files (document 02, M-102): records of types 00, 01 and 04, read into a code area.

use std::collections::BTreeMap;
use std::ops::Range;

use crate::machine::{CODE_BASE, MAX_BYTES};

/// Type of a record of data bytes.
pub const DATA: u8 = 0x00;
/// Type of the end record.
pub const END: u8 = 0x01;
/// Type of a record that sets the upper half.
pub const UPPER: u8 = 0x04;
/// Address of code offset 0.
pub const FIRST: u64 = CODE_BASE as u64;
/// The first address above those that code can have.
pub const PAST: u64 = FIRST + MAX_BYTES as u64;
/// What gaps are filled with.
const FILLER: u8 = 0x90;

/// Number and answer: the code's length with number 0, else the line, which is 0 with 35 and 37.
#[derive(Clone, Copy, PartialEq, Eq, Debug)]
pub struct Reading {
    pub number: u32,
    pub answer: u32,
}

/// A well-formed line's record.
#[derive(Clone, PartialEq, Eq, Debug)]
pub struct Record {
    pub offset: u16,
    pub kind: u8,
    pub data: Vec<u8>,
    pub checksum: u8,
    /// The sum of all its bytes, checksum included.
    pub sum: u8,
}

/// The text's lines with their ends; what follows the last LF is a line too.
pub fn lines(text: &[u8]) -> impl Iterator<Item = &[u8]> {
    text.split_inclusive(|&byte| byte == b'\n')
}

/// The value of a hex digit in either case.
fn digit(character: u8) -> Option<u8> {
    char::from(character).to_digit(16).map(|value| value as u8)
}

/// The bytes that hex digits give, two a byte.
fn bytes(digits: &[u8]) -> Option<Vec<u8>> {
    if digits.len() % 2 != 0 {
        return None;
    }
    digits.chunks(2).map(|pair| Some(digit(pair[0])? << 4 | digit(pair[1])?)).collect()
}

/// The line's record, or none if the line is malformed.
pub fn record(line: &[u8]) -> Option<Record> {
    let body = line.strip_suffix(b"\r\n").or(line.strip_suffix(b"\n"))?;
    let bytes = bytes(body.strip_prefix(b":")?)?;
    let [count, high, low, kind, ref data @ .., checksum] = bytes[..] else { return None };
    (data.len() == usize::from(count)).then(|| Record {
        offset: u16::from_be_bytes([high, low]),
        kind,
        data: data.to_vec(),
        checksum,
        sum: bytes.iter().fold(0, |sum, &byte| sum.wrapping_add(byte)),
    })
}

/// Whether the type is read, with so many data bytes.
fn is_read(record: &Record) -> bool {
    match record.kind {
        DATA => true,
        END => record.data.is_empty(),
        UPPER => record.data.len() == 2,
        _ => false,
    }
}

/// What the lines so far gave.
#[derive(Clone, Default)]
pub struct File {
    /// Upper half of the addresses that follow.
    pub upper: u16,
    /// Bytes by their addresses.
    pub given: BTreeMap<u64, u8>,
    /// Whether the end record came.
    pub ended: bool,
}

impl File {
    /// Where the record's data bytes lie.
    pub fn addresses(&self, record: &Record) -> Range<u64> {
        let first = u64::from(self.upper) * 65_536 + u64::from(record.offset);
        first..first + record.data.len() as u64
    }

    /// The numbers that refuse the next line, in the order in which they are tested; the area has so many bytes.
    pub fn refusals(&self, line: &[u8], length: usize) -> Vec<u32> {
        let past_end = self.ended.then_some(36);
        let own = record(line).map_or(vec![30], |record| self.record_refusals(&record, length));
        past_end.into_iter().chain(own).collect()
    }

    /// The numbers from 31 to 34 that refuse a record.
    fn record_refusals(&self, record: &Record, length: usize) -> Vec<u32> {
        let places = FIRST..PAST.min(FIRST + length as u64);
        let mut addresses = if record.kind == DATA { self.addresses(record) } else { 0..0 };
        let wrong = [
            (31, record.sum != 0),
            (32, !is_read(record)),
            (33, addresses.clone().any(|address| !places.contains(&address))),
            (34, addresses.any(|address| self.given.contains_key(&address))),
        ];
        wrong.into_iter().filter(|&(_, applies)| applies).map(|(number, _)| number).collect()
    }

    /// Takes in a record that nothing refuses.
    pub fn take(&mut self, record: &Record) {
        match record.kind {
            DATA => self.given.extend(self.addresses(record).zip(record.data.iter().copied())),
            UPPER => self.upper = u16::from_be_bytes([record.data[0], record.data[1]]),
            _ => self.ended = true,
        }
    }
}

/// The file's bytes, or its refusal.
fn file(text: &[u8], length: usize) -> Result<File, Reading> {
    let mut file = File::default();
    for (at, line) in lines(text).enumerate() {
        if let Some(&number) = file.refusals(line, length).first() {
            return Err(Reading { number, answer: u32::try_from(at + 1).unwrap_or(u32::MAX) });
        }
        file.take(&record(line).expect("a line that isn't refused holds a record"));
    }
    match file {
        File { ended: false, .. } => Err(Reading { number: 35, answer: 0 }),
        File { given, .. } if given.is_empty() => Err(Reading { number: 37, answer: 0 }),
        file => Ok(file),
    }
}

/// Reads the text into the area; a refusal leaves the area as it is.
pub fn read(text: &[u8], area: &mut [u8]) -> Reading {
    let file = match file(text, area.len()) {
        Ok(file) => file,
        Err(refused) => return refused,
    };
    let (highest, _) = file.given.last_key_value().expect("an accepted file has a byte");
    let code = &mut area[..=(highest - FIRST) as usize];
    code.fill(FILLER);
    for (address, byte) in file.given {
        code[(address - FIRST) as usize] = byte;
    }
    Reading { number: 0, answer: code.len() as u32 }
}
