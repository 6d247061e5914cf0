//! A program that slips in a hex file is found out.

use partner::cases::{Case, Generator, Size};
use partner::compare::{Comparison, Other, ANSWER_WORDS};
use partner::hex::{lines, record, File, Reading, Record, DATA, FIRST};

/// Numbers that refuse a line, in the order in which they are tested.
const ORDER: [u32; 6] = [36, 30, 31, 32, 33, 34];

/// A reader that can slip.
struct Reader {
    /// The numbers that refuse the next line, with an area of this length.
    refusals: fn(&File, &[u8], usize) -> Vec<u32>,
    /// Takes in a record.
    take: fn(&mut File, &Record),
    /// The number of a file whose lines are all sound, if it isn't accepted.
    lack: fn(&File) -> Option<u32>,
    /// Fills the code's place before its bytes come.
    fill: fn(&mut [u8], usize),
}

/// A reader without a slip.
const SOUND: Reader = Reader {
    refusals: File::refusals,
    take: File::take,
    lack: |file| match file {
        File { ended: false, .. } => Some(35),
        File { given, .. } => given.is_empty().then_some(37),
    },
    fill: |area, length| area[..length].fill(0x90),
};

impl Reader {
    /// Reads the text into the area.
    fn read(&self, text: &[u8], area: &mut [u8]) -> Reading {
        let mut file = File::default();
        for (line, answer) in lines(text).zip(1..) {
            if let Some(&number) = (self.refusals)(&file, line, area.len()).first() {
                return Reading { number, answer };
            }
            let ended = [line.trim_ascii_end(), b"\n"].concat();
            (self.take)(&mut file, &record(&ended).expect("a line that isn't refused holds a record"));
        }
        if let Some(number) = (self.lack)(&file) {
            return Reading { number, answer: 0 };
        }
        let length = file.given.last_key_value().map_or(0, |(highest, _)| highest + 1 - FIRST);
        (self.fill)(area, length as usize);
        for (address, byte) in file.given {
            area[(address - FIRST) as usize] = byte;
        }
        Reading { number: 0, answer: length as u32 }
    }
}

impl Other for Reader {
    fn run(&self, _: &mut [u32], _: &[u8], _: &[u8], _: &mut [u8], _: u64) -> u32 {
        unreachable!("only hex files are compared")
    }

    fn check(&self, _: &[u8], _: &mut [u8], _: &mut [u32]) -> u32 {
        unreachable!("only hex files are compared")
    }

    fn hex(&self, text: &[u8], code: &mut [u8], answer: &mut [u32]) -> u32 {
        assert_eq!(answer.len(), ANSWER_WORDS);
        let reading = self.read(text, code);
        answer[0] = reading.answer;
        reading.number
    }
}

/// Defined disagreements with the reader in 5,000 hex files.
fn disagreements(reader: &Reader) -> u64 {
    let mut generator = Generator::new(3, Size::Large);
    let mut comparison = Comparison::new(reader, std::iter::empty(), 0);
    for _ in 0..5_000 {
        comparison.case(&Case::Hex(generator.hex()));
    }
    assert_eq!(comparison.policy, 0);
    comparison.defined
}

/// The slip is found at least five times.
fn is_found(reader: &Reader) {
    let found = disagreements(reader);
    assert!(found >= 5, "{found}");
}

/// A slip in the numbers that refuse a line.
fn is_found_in_refusals(refusals: fn(&File, &[u8], usize) -> Vec<u32>) {
    is_found(&Reader { refusals, ..SOUND });
}

/// The numbers but one, if this holds.
fn without(number: u32, holds: bool, mut numbers: Vec<u32>) -> Vec<u32> {
    numbers.retain(|&other| other != number || !holds);
    numbers
}

/// The numbers, one tested before all others or after them.
fn moved(number: u32, first: bool, mut numbers: Vec<u32>) -> Vec<u32> {
    numbers.sort_by_key(|&other| (other == number) != first);
    numbers
}

/// The record's parts up to offset FFFFh and behind it, the latter from offset 0 on.
fn wrapped(record: &Record) -> [Record; 2] {
    let room = 0x1_0000 - usize::from(record.offset);
    let (before, behind) = record.data.split_at(room.min(record.data.len()));
    let part = |offset, data: &[u8]| Record { offset, data: data.to_vec(), ..record.clone() };
    [part(record.offset, before), part(0, behind)]
}

/// A record's line, with a right sum.
fn line(record: &Record) -> Vec<u8> {
    let [high, low] = record.offset.to_be_bytes();
    let mut bytes = [&[record.data.len() as u8, high, low, record.kind], record.data.as_slice()].concat();
    bytes.push(bytes.iter().fold(0, |sum: u8, byte| sum.wrapping_sub(*byte)));
    let digits: String = bytes.iter().map(|byte| format!("{byte:02X}")).collect();
    format!(":{digits}\n").into_bytes()
}

#[test]
fn no_slip_agrees() {
    assert_eq!(disagreements(&SOUND), 0);
}

#[test]
fn a_sum_right_without_the_checksum_is_found() {
    is_found_in_refusals(|file, line, length| {
        let right = record(line).is_some_and(|record| record.sum == record.checksum);
        without(31, right, file.refusals(line, length))
    });
}

#[test]
fn an_address_given_again_with_equal_bytes_is_found() {
    is_found_in_refusals(|file, line, length| {
        let equal = record(line).is_some_and(|record| {
            let differs = |(address, byte)| file.given.get(&address).is_some_and(|before| before != byte);
            !file.addresses(&record).zip(&record.data).any(differs)
        });
        without(34, equal, file.refusals(line, length))
    });
}

#[test]
fn an_address_given_again_at_a_record_s_last_byte_is_found() {
    is_found_in_refusals(|file, line, length| {
        let last = record(line).is_some_and(|record| {
            let mut before = file.addresses(&record).take(record.data.len().saturating_sub(1));
            !before.any(|address| file.given.contains_key(&address))
        });
        without(34, last, file.refusals(line, length))
    });
}

#[test]
fn gaps_filled_with_00_are_found() {
    is_found(&Reader { fill: |area, length| area[..length].fill(0), ..SOUND });
}

#[test]
fn gaps_left_as_they_were_are_found() {
    is_found(&Reader { fill: |_, _| {}, ..SOUND });
}

#[test]
fn an_area_filled_beyond_the_code_is_found() {
    is_found(&Reader { fill: |area, _| area.fill(0x90), ..SOUND });
}

#[test]
fn a_wrong_order_of_numbers_is_found() {
    is_found_in_refusals(|file, line, length| moved(34, true, file.refusals(line, length)));
    is_found_in_refusals(|file, line, length| moved(33, true, file.refusals(line, length)));
    is_found_in_refusals(|file, line, length| moved(32, true, file.refusals(line, length)));
    is_found_in_refusals(|file, line, length| moved(31, false, file.refusals(line, length)));
    is_found_in_refusals(|file, line, length| moved(36, false, file.refusals(line, length)));
}

#[test]
fn addresses_that_wrap_after_offset_ffff_are_found() {
    let refusals: fn(&File, &[u8], usize) -> Vec<u32> = |file, text, length| match record(text) {
        Some(record) if record.kind == DATA && record.sum == 0 => {
            let mut numbers: Vec<u32> =
                wrapped(&record).iter().flat_map(|part| file.refusals(&line(part), length)).collect();
            numbers.sort_by_key(|number| ORDER.iter().position(|other| other == number));
            numbers
        }
        _ => file.refusals(text, length),
    };
    let take: fn(&mut File, &Record) = |file, record| match record.kind {
        DATA => wrapped(record).iter().for_each(|part| file.take(part)),
        _ => file.take(record),
    };
    is_found(&Reader { refusals, take, ..SOUND });
}

#[test]
fn a_byte_above_the_block_in_a_longer_area_is_found() {
    is_found_in_refusals(|file, line, length| {
        let end = FIRST + length as u64;
        let inside =
            record(line).is_some_and(|record| file.addresses(&record).all(|address| (FIRST..end).contains(&address)));
        without(33, inside, file.refusals(line, length))
    });
}

#[test]
fn a_last_line_without_its_end_is_found() {
    is_found_in_refusals(|file, line, length| {
        if line.ends_with(b"\n") {
            file.refusals(line, length)
        } else {
            file.refusals(&[line, b"\n"].concat(), length)
        }
    });
}

#[test]
fn an_upper_half_low_byte_first_is_found() {
    let take: fn(&mut File, &Record) = |file, record| {
        file.take(record);
        if record.kind == 4 {
            file.upper = file.upper.swap_bytes();
        }
    };
    is_found(&Reader { take, ..SOUND });
}

#[test]
fn no_data_byte_told_before_no_end_record_is_found() {
    let lack: fn(&File) -> Option<u32> = |file| match file {
        File { given, .. } if given.is_empty() => Some(37),
        File { ended, .. } => (!ended).then_some(35),
    };
    is_found(&Reader { lack, ..SOUND });
}
