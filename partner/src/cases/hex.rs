//! Hex files: sound ones, and ones damaged in their records or in their characters.

use super::{Generator, HexCase, Size};
use crate::hex::{read, DATA, END, UPPER};
use crate::machine::{CODE_BASE, MAX_BYTES};

/// Most characters of a small file.
const SMALL_TEXT: usize = 220;
/// Most bytes of a small case's area up to the last that isn't 0.
const SMALL_AREA: usize = 64;
/// After so many bytes those of a large area come again.
const PERIOD: usize = 257;
/// Among so many large files is one that fills the whole block.
const WHOLE_AMONG: usize = 3000;
/// The upper half of code addresses.
const OWN: u16 = (CODE_BASE >> 16) as u16;
/// The first address above the block.
const PAST: u32 = CODE_BASE + MAX_BYTES as u32;
/// Upper halves beside that of code addresses.
const OTHER_HALVES: [u16; 7] = [0, 0, 2, 2, 0x0100, 0x8001, 0xFFFF];
/// Types beside 00, 01 and 04.
const OTHER_TYPES: [u8; 12] = [0x02, 0x02, 0x03, 0x03, 0x05, 0x05, 0x06, 0x10, 0x14, 0x40, 0x80, 0xFF];
/// Characters of hex files.
const ALPHABET: &[u8] = b"::00000123456789ABCDEFabcdef\r\n\n";
/// Characters just beside the digits and letters, blanks and other ends of lines.
const ODD: &[u8] = b"/:@G`g \t\0\x0B\x85\r\n";

/// A record to be written.
#[derive(Clone)]
struct Draft {
    kind: u8,
    offset: u16,
    data: Vec<u8>,
    /// What the count is off by.
    count_off: u8,
    /// What the checksum is off by.
    sum_off: u8,
}

impl Draft {
    /// A sound record.
    fn new(kind: u8, offset: u16, data: Vec<u8>) -> Self {
        Draft { kind, offset, data, count_off: 0, sum_off: 0 }
    }

    /// A record that sets the upper half.
    fn upper(half: u16) -> Self {
        Draft::new(UPPER, 0, half.to_be_bytes().to_vec())
    }

    /// The bytes before the checksum.
    fn front(&self) -> Vec<u8> {
        let count = (self.data.len() as u8).wrapping_add(self.count_off);
        let [high, low] = self.offset.to_be_bytes();
        [&[count, high, low, self.kind], self.data.as_slice()].concat()
    }

    /// The sum of the bytes before the checksum.
    fn sum(&self) -> u8 {
        self.front().into_iter().fold(0, u8::wrapping_add)
    }

    /// All bytes.
    fn bytes(&self) -> Vec<u8> {
        let checksum = self.sum().wrapping_neg().wrapping_add(self.sum_off);
        [self.front(), vec![checksum]].concat()
    }

    /// Makes the bytes before the checksum sum to 0.
    fn level(&mut self) {
        let sum = self.sum();
        match (self.kind, self.data.first_mut()) {
            (DATA, Some(byte)) => *byte = byte.wrapping_sub(sum),
            _ => {
                let [high, low] = self.offset.to_be_bytes();
                self.offset = u16::from_be_bytes([high, low.wrapping_sub(sum)]);
            }
        }
    }
}

/// Data records with their offsets, none over another, and where the highest byte ends.
struct Parts {
    records: Vec<(usize, Vec<u8>)>,
    top: usize,
}

/// How a file's lines are written.
struct Style {
    ends: &'static [&'static [u8]],
    /// Of a hundred letters so many are small.
    small: usize,
}

/// Places of records with data bytes.
fn with_data(drafts: &[Draft]) -> Vec<usize> {
    (0..drafts.len()).filter(|&at| drafts[at].kind == DATA && !drafts[at].data.is_empty()).collect()
}

/// Whether a vector line has room for the case and its outcome.
fn is_small(case: &HexCase) -> bool {
    let mut area = case.area.clone();
    read(&case.text, &mut area);
    case.text.len() <= SMALL_TEXT && area.iter().skip(SMALL_AREA).all(|&byte| byte == 0)
}

impl Generator {
    /// A hex file with a code area.
    pub fn hex(&mut self) -> HexCase {
        self.hexes += 1;
        if self.size == Size::Large && self.hexes % WHOLE_AMONG == WHOLE_AMONG / 2 {
            let parts = self.whole_block();
            return self.file(parts);
        }
        loop {
            let case = match self.random.below(50) {
                0 => HexCase { text: Vec::new(), ..self.noise() },
                1 | 2 => self.noise(),
                _ => {
                    let parts = self.parts();
                    self.file(parts)
                }
            };
            if self.size == Size::Large || is_small(&case) {
                return case;
            }
        }
    }

    /// Random bytes, or random characters of hex files.
    fn noise(&mut self) -> HexCase {
        let length = self.random.below(100);
        let any = self.random.percent(30);
        let text = (0..length).map(|_| if any { self.random.byte() } else { self.random.pick(ALPHABET) }).collect();
        let room = self.random.below(SMALL_AREA);
        HexCase { text, area: self.area(room) }
    }

    /// A file of these records, damaged at times, with an area for it.
    fn file(&mut self, parts: Parts) -> HexCase {
        let room = self.area_length(parts.top);
        let sound = parts.top == MAX_BYTES && self.random.percent(50);
        let mut drafts = self.sound(parts);
        let (in_records, in_characters) = if sound { (0, 0) } else { self.damages() };
        let mut at = self.random.below(drafts.len());
        for _ in 0..in_records {
            at = self.damage_records(&mut drafts, at, room);
            at = self.same_or_other(at, drafts.len());
        }
        let mut lines = self.written(&drafts);
        for _ in 0..in_characters {
            at = self.damage_lines(&mut lines, at);
            at = self.same_or_other(at, lines.len());
        }
        HexCase { text: lines.concat(), area: self.area(room) }
    }

    /// How often a file's records and its characters are damaged.
    fn damages(&mut self) -> (usize, usize) {
        match self.random.below(16) {
            0..=3 => (0, 0),
            4..=8 => (1, 0),
            9 | 10 => (0, 1),
            11 | 12 => (1, 1),
            13 | 14 => (2, 0),
            _ => (0, 2),
        }
    }

    /// The same place, or any of so many.
    fn same_or_other(&mut self, at: usize, count: usize) -> usize {
        if self.random.percent(40) {
            self.random.below(count.max(1))
        } else {
            at
        }
    }

    /// How many bytes a data record has.
    fn record_length(&mut self) -> usize {
        match (self.size, self.random.below(20)) {
            (_, 0) => 0,
            (_, 1..=4) => 1,
            (Size::Small, 5) => self.random.between(17, 20),
            (Size::Small, _) => self.random.between(2, 8),
            (Size::Large, 5) => 255,
            (Size::Large, 6 | 7) => self.random.between(17, 254),
            (Size::Large, _) => self.random.between(2, 16),
        }
    }

    /// Some data records, with gaps at times, mostly in order and mostly from the code's beginning on.
    fn parts(&mut self) -> Parts {
        let (most, widest) = if self.size == Size::Small { (4, 5) } else { (12, 100) };
        let count = self.random.between(1, most);
        let gaps = self.random.pick(&[0, 0, 20, 60]);
        let mut records = Vec::new();
        let mut top = 0;
        for _ in 0..count {
            top += if self.random.percent(gaps) { self.random.between(1, widest) } else { 0 };
            let length = self.record_length();
            records.push((top, self.bytes(length)));
            top += length;
        }
        let room = MAX_BYTES - top;
        let moved = match (self.size, self.random.below(12)) {
            (Size::Large, 0) => room,
            (Size::Large, 1) => self.random.below(room + 1),
            _ => 0,
        };
        records.iter_mut().for_each(|(offset, _)| *offset += moved);
        if self.random.percent(30) {
            self.shuffle(&mut records);
        }
        let top = records.iter().filter(|part| !part.1.is_empty()).map(|part| part.0 + part.1.len()).max().unwrap_or(0);
        Parts { records, top }
    }

    /// Records that fill the whole block.
    fn whole_block(&mut self) -> Parts {
        let length = self.random.pick(&[16, 32, 255]);
        let block = self.area(MAX_BYTES);
        let mut records: Vec<(usize, Vec<u8>)> =
            block.chunks(length).enumerate().map(|(turn, data)| (turn * length, data.to_vec())).collect();
        if self.random.percent(30) {
            self.shuffle(&mut records);
        }
        Parts { records, top: MAX_BYTES }
    }

    /// Puts items into any order.
    fn shuffle<T>(&mut self, items: &mut [T]) {
        for last in (1..items.len()).rev() {
            items.swap(last, self.random.below(last + 1));
        }
    }

    /// An upper half that isn't that of code addresses.
    fn other_half(&mut self) -> u16 {
        if self.random.percent(90) {
            self.random.pick(&OTHER_HALVES)
        } else {
            (self.random.word() as u16).max(2)
        }
    }

    /// Records that end with one for the upper half of code addresses.
    fn halves(&mut self) -> Vec<Draft> {
        let mut drafts = Vec::new();
        for _ in 0..self.random.pick(&[0, 0, 0, 1, 1, 2]) {
            let half = if self.random.percent(30) { OWN } else { self.other_half() };
            drafts.push(Draft::upper(half));
        }
        drafts.push(Draft::upper(OWN));
        drafts
    }

    /// The records of a sound file.
    fn sound(&mut self, parts: Parts) -> Vec<Draft> {
        let mut drafts = self.halves();
        for (offset, data) in parts.records {
            if self.random.percent(8) {
                drafts.extend(self.halves());
            }
            // A record without a byte may lie anywhere.
            if data.is_empty() && self.random.percent(50) {
                let half = self.other_half();
                let offset = self.random.word() as u16;
                drafts.extend([Draft::upper(half), Draft::new(DATA, offset, data), Draft::upper(OWN)]);
            } else {
                drafts.push(Draft::new(DATA, offset as u16, data));
            }
        }
        if self.random.percent(8) {
            let half = self.other_half();
            drafts.push(Draft::upper(half));
        }
        drafts.push(Draft::new(END, 0, Vec::new()));
        for draft in &mut drafts {
            if draft.kind != DATA && self.random.percent(10) {
                draft.offset = self.random.word() as u16;
            }
            if self.random.percent(5) {
                draft.level();
            }
        }
        drafts
    }

    /// The length of an area for code of this length.
    fn area_length(&mut self, top: usize) -> usize {
        match self.random.below(40) {
            0..=13 => top,
            14..=17 => top + 1,
            18 | 19 => top.saturating_sub(1),
            20 => 0,
            21 => self.random.below(6),
            22..=25 => MAX_BYTES,
            26 | 27 => MAX_BYTES + self.random.between(1, 4),
            _ => top + self.random.below(40),
        }
    }

    /// An area of this length.
    fn area(&mut self, length: usize) -> Vec<u8> {
        let most = if self.size == Size::Small { SMALL_AREA } else { PERIOD };
        let mut area = self.bytes(length.min(most));
        match self.size {
            Size::Small => area.resize(length, 0),
            Size::Large => area = area.iter().copied().cycle().take(length).collect(),
        }
        area
    }

    /// Damages the records, mostly the one at this place, and tells at which one it shows.
    fn damage_records(&mut self, drafts: &mut Vec<Draft>, at: usize, room: usize) -> usize {
        if drafts.is_empty() {
            return 0;
        }
        match self.random.below(26) {
            0..=3 => self.spoil_sum(&mut drafts[at]),
            4 => drafts[at].kind = self.random.pick(&OTHER_TYPES),
            5..=8 => drafts.insert(at, self.unread()),
            9..=12 => return self.add_outside(drafts, at, room),
            13..=17 => return self.add_again(drafts, at),
            18 | 19 => return self.add_again_and_outside(drafts, room),
            20 | 21 => {
                drafts.insert(at, Draft::new(END, 0, Vec::new()));
                return at + 1;
            }
            22 | 23 => {
                self.take_away(drafts);
                return at.min(drafts.len().saturating_sub(1));
            }
            24 => drafts[at].count_off = self.random.pick(&[1, 0xFF, 2, 0x80]),
            _ => {
                let again = drafts[self.random.below(drafts.len())].clone();
                drafts.push(again);
                return drafts.len() - 1;
            }
        }
        at
    }

    /// Makes a record's sum wrong, at times one that is right without the checksum, or with it taken as the sum.
    fn spoil_sum(&mut self, draft: &mut Draft) {
        draft.sum_off = match self.random.below(5) {
            0 => 1,
            1 => 0xFF,
            2 => draft.sum().wrapping_mul(2),
            3 => {
                draft.level();
                self.random.byte()
            }
            _ => self.random.byte(),
        };
    }

    /// A record of another type, or one of 01 or 04 with a wrong number of bytes.
    fn unread(&mut self) -> Draft {
        let kind = self.random.pick(&[0x02, 0x03, 0x05, END, END, UPPER, UPPER, UPPER]);
        let length = match kind {
            END => self.random.pick(&[1, 2, 3, 4]),
            UPPER => self.random.pick(&[0, 1, 3, 4]),
            0x02 => 2,
            _ => 4,
        };
        let offset = if self.random.percent(70) { 0 } else { self.random.word() as u16 };
        Draft::new(kind, offset, self.bytes(length))
    }

    /// Adds a record with a byte outside or at an end of the area or the block, and tells where.
    fn add_outside(&mut self, drafts: &mut Vec<Draft>, at: usize, room: usize) -> usize {
        let length = self.random.between(1, 6);
        let before = self.random.below(length) as u32;
        let end = CODE_BASE + room.min(MAX_BYTES) as u32;
        let address = match self.random.below(13) {
            0 => CODE_BASE - length as u32,
            1 => CODE_BASE - before,
            2 | 3 => end,
            4 | 5 => end - before.min(room as u32),
            6 => end + 1 - (length as u32).min(room as u32),
            7 => PAST,
            8 => PAST - before,
            9 => PAST - length as u32,
            10 => CODE_BASE + room as u32 - before.min(room as u32),
            11 => u32::from(self.other_half()) << 16 | self.random.below(8) as u32,
            _ => self.random.word(),
        };
        let record = Draft::new(DATA, address as u16, self.bytes(length));
        self.insert_under(drafts, at, (address >> 16) as u16, record)
    }

    /// Inserts a data record under an upper half, with the records that set it and set it back, and tells where.
    fn insert_under(&mut self, drafts: &mut Vec<Draft>, at: usize, half: u16, record: Draft) -> usize {
        if (half == OWN && at > 0 || half == 0 && at == 0) && self.random.percent(80) {
            drafts.insert(at, record);
            return at;
        }
        drafts.splice(at..at, [Draft::upper(half), record, Draft::upper(OWN)]);
        at + 1
    }

    /// Adds a record with an address given before, and tells where.
    fn add_again(&mut self, drafts: &mut Vec<Draft>, at: usize) -> usize {
        let having = with_data(drafts);
        if having.is_empty() {
            return at;
        }
        let from = self.random.pick(&having);
        let Draft { offset, data, .. } = drafts[from].clone();
        let last = data.len() - 1;
        let one = self.random.below(data.len());
        let count = self.random.between(1, 3);
        let fresh = self.bytes(count);
        let (by, mut data) = match self.random.below(5) {
            0 => (0, data),
            1 => (one as u16, vec![data[one]]),
            2 => (last as u16, [vec![data[last]], fresh].concat()),
            3 => ((fresh.len() as u16).wrapping_neg(), [fresh, vec![data[0]]].concat()),
            _ => (0xFFFF, [&fresh[..1], &data[..], &fresh[..]].concat()),
        };
        data.truncate(0xFF);
        if self.random.percent(50) {
            data.iter_mut().for_each(|byte| *byte = byte.wrapping_add(1));
        }
        let place = self.random.between(from + 1, drafts.len().min(from + 3));
        drafts.insert(place, Draft::new(DATA, offset.wrapping_add(by), data));
        place
    }

    /// Adds a record with one address given before and one outside, if one can have both, and tells where.
    fn add_again_and_outside(&mut self, drafts: &mut Vec<Draft>, room: usize) -> usize {
        let having = with_data(drafts);
        let end = |draft: &Draft| usize::from(draft.offset) + draft.data.len();
        let Some(&highest) = having.iter().max_by_key(|&&at| end(&drafts[at])) else { return 0 };
        let Some(&lowest) = having.iter().min_by_key(|&&at| drafts[at].offset) else { return 0 };
        let (first, next) = (end(&drafts[highest]) - 1, usize::from(drafts[lowest].offset));
        let up = (room + 1).saturating_sub(first);
        if (2..0xFF).contains(&up) && self.random.percent(60) {
            let record = Draft::new(DATA, first as u16, self.bytes(up));
            drafts.insert(highest + 1, record);
            highest + 1
        } else if next < 0xFE {
            let record = Draft::new(DATA, 0xFFFF, self.bytes(next + 2));
            self.insert_under(drafts, lowest + 1, 0, record)
        } else {
            highest
        }
    }

    /// Takes away the end record, the data, both, or the records that set the upper half.
    fn take_away(&mut self, drafts: &mut Vec<Draft>) {
        match self.random.below(6) {
            0 | 1 => drafts.retain(|draft| draft.kind != END),
            2 => drafts.retain(|draft| draft.kind == UPPER),
            3 => drafts.retain(|draft| draft.kind != DATA),
            4 => drafts.iter_mut().filter(|draft| draft.kind == DATA).for_each(|draft| draft.data.clear()),
            _ => drafts.retain(|draft| draft.kind != UPPER),
        }
    }

    /// The records' lines.
    fn written(&mut self, drafts: &[Draft]) -> Vec<Vec<u8>> {
        let ends: &[&'static [&'static [u8]]] = &[&[b"\n"], &[b"\r\n"], &[b"\n", b"\r\n"]];
        let style = Style { ends: self.random.pick(ends), small: self.random.pick(&[0, 100, 50]) };
        drafts.iter().map(|draft| self.line(draft, &style)).collect()
    }

    /// A record's line.
    fn line(&mut self, draft: &Draft, style: &Style) -> Vec<u8> {
        let mut line = vec![b':'];
        for byte in draft.bytes() {
            for digit in format!("{byte:02X}").bytes() {
                let small = self.random.percent(style.small);
                line.push(if small { digit.to_ascii_lowercase() } else { digit });
            }
        }
        line.extend(self.random.pick(style.ends));
        line
    }

    /// A character that mostly doesn't belong where it comes.
    fn character(&mut self) -> u8 {
        match self.random.below(4) {
            0 => self.random.pick(ALPHABET),
            1 => self.random.byte(),
            _ => self.random.pick(ODD),
        }
    }

    /// Damages the lines, mostly the one at this place, and tells at which one it shows.
    fn damage_lines(&mut self, lines: &mut Vec<Vec<u8>>, at: usize) -> usize {
        let last = lines.len().saturating_sub(1);
        let at = at.min(last);
        if lines.get(at).is_none_or(Vec::is_empty) {
            return at;
        }
        let place = self.random.below(lines[at].len());
        match self.random.below(16) {
            0 | 1 => lines[at][place] = self.character(),
            2 => {
                lines[at].remove(place);
            }
            3 => lines[at].insert(place, self.character()),
            4 => self.spoil_colon(&mut lines[at]),
            5..=7 => self.spoil_end(&mut lines[at]),
            8 | 9 => {
                let keep_return = self.random.percent(50);
                lines[last].retain(|&byte| byte != b'\n' && (keep_return || byte != b'\r'));
                return last;
            }
            10 => {
                let line: &[u8] = self.random.pick(&[&b"\n"[..], b"\r\n"]);
                lines.insert(at, line.to_vec());
            }
            11 | 12 => self.spoil_length(&mut lines[at]),
            13 => {
                let blank = self.random.pick(b" \t");
                let body = lines[at].iter().rposition(u8::is_ascii_hexdigit).map_or(0, |last| last + 1);
                lines[at].insert(self.random.pick(&[0, body]), blank);
            }
            _ => {
                let line: &[u8] = self.random.pick(&[&b"\n"[..], b"\r\n", b"\r", b":", b" ", b"\0", b"\x1A"]);
                lines.push(line.to_vec());
                return last + 1;
            }
        }
        at
    }

    /// Takes away a line's colon, doubles or replaces it.
    fn spoil_colon(&mut self, line: &mut Vec<u8>) {
        match self.random.below(3) {
            0 => {
                line.remove(0);
            }
            1 => line.insert(0, b':'),
            _ => line[0] = self.random.pick(b";.0 \r"),
        }
    }

    /// Gives a line another end.
    fn spoil_end(&mut self, line: &mut Vec<u8>) {
        line.retain(|&byte| byte != b'\r' && byte != b'\n');
        let end: &[u8] = self.random.pick(&[&b"\r"[..], b"\r\r\n", b"\r\r\n", b"\n\r", b""]);
        line.extend(end);
    }

    /// Takes digits from a line's record or adds some, mostly whole bytes.
    fn spoil_length(&mut self, line: &mut Vec<u8>) {
        let end = line.iter().rposition(u8::is_ascii_hexdigit).map_or(0, |last| last + 1);
        let digits: &[u8] = self.random.pick(&[&b"0"[..], b"00", b"00", b"0000", b"fF01"]);
        if self.random.percent(50) {
            line.splice(end..end, digits.iter().copied());
        } else {
            let less = if self.random.percent(60) { 2 } else { self.random.between(1, 12) };
            line.drain(end.saturating_sub(less)..end);
        }
    }
}
