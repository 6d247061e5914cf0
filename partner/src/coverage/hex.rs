//! Groups of hex files: what is refused and what else is wrong there, and what accepted files are like.

use std::ops::Range;

use super::Group;
use crate::hex::{lines, record, File, Record, DATA, END, FIRST, PAST, UPPER};
use crate::machine::MAX_BYTES;

/// The groups, in the order in which they are shown.
#[derive(Clone, Copy)]
enum Kind {
    Wrong,
    Next,
    Malformed,
    Sums,
    Types,
    Places,
    Again,
    PastEnd,
    Lacks,
    Writing,
    Records,
    Halves,
    Gaps,
    Areas,
    Long,
}

/// A group and the name of one of its shapes.
type Shape = (Kind, String);

/// Numbers that refuse a line, in the order in which they are tested.
const NUMBERS: [u32; 6] = [36, 30, 31, 32, 33, 34];
const MALFORMED: [&str; 20] = [
    "unended",
    "unended after CR",
    "unended and broken",
    "empty",
    "empty with CR",
    "CR CR LF",
    "CR in front",
    "CR inside",
    "no colon",
    "second colon",
    "character beside the digits or letters",
    "blank",
    "byte over 7F",
    "another character",
    "odd digits",
    "fewer than five bytes",
    "a byte too few",
    "bytes too few",
    "a byte too many",
    "bytes too many",
];
const SUMS: [&str; 6] =
    ["one too high", "one too low", "0 without the checksum", "checksum is the sum", "otherwise wrong", "checksum 0"];
const TYPES: [&str; 8] = ["02", "03", "05", "another", "01 with data", "04 of 0", "04 of 1", "04 of more"];
const PLACES: [&str; 12] = [
    "first of the area",
    "last of the area",
    "no byte below the code",
    "no byte past the block",
    "just below the code",
    "from below into the code",
    "just past the area",
    "across the area's end",
    "just past the block with the area to there",
    "across the block's end with the area to there",
    "just past the block with the area longer",
    "across the block's end with the area longer",
];
/// Which of a record's addresses were given before.
const AGAIN: [&str; 4] = ["all", "first", "last", "others"];
const EQUAL: [&str; 2] = ["equal", "different"];
const PAST_END: [&str; 7] = ["empty", "unended", "malformed", "00", "01", "04", "another type"];
const LACKS: [&str; 8] = [
    "no line",
    "35 with data",
    "35 without data",
    "37 without type 00",
    "37 with type 00",
    "30 to 34 without end record",
    "30 to 34 without data",
    "36 without data",
];
const ENDS: [&str; 3] = ["LF", "CR LF", "both ends"];
const LETTERS: [&str; 3] = ["capitals", "small letters", "both cases"];
const RECORDS: [&str; 6] = ["no byte", "1 byte", "2 to 16 bytes", "17 to 254 bytes", "in order", "out of order"];
const HALVES: [&str; 15] = [
    "1 once",
    "1 again",
    "0 set",
    "2 set",
    "0100 set",
    "another set",
    "changed between data",
    "changed after data",
    "04 with an offset",
    "01 with an offset",
    "data before any 04",
    "data under 0",
    "data under 2",
    "data under 0100",
    "data under another",
];
const GAPS: [&str; 4] = ["none", "one in front", "one between", "many"];
const AREAS: [&str; 10] = [
    "0 with data",
    "0 without data",
    "one byte too few",
    "exactly enough",
    "one byte more",
    "more",
    "65536 accepted",
    "65536 refused",
    "longer accepted",
    "longer refused",
];
const LONG: [&str; 4] = [
    "255 bytes in a record",
    "last of the block with the area to there",
    "last of the block with the area longer",
    "all 65536 bytes",
];

/// Each number alone, and with each later one that can apply to the same line; 32 has no bytes for 33 and 34.
fn wrong() -> Vec<String> {
    let alone = NUMBERS.iter().map(ToString::to_string);
    let both = (0..NUMBERS.len()).flat_map(|at| NUMBERS[at + 1..].iter().map(move |next| (NUMBERS[at], next)));
    alone.chain(both.filter(|both| both.0 != 32).map(|(first, next)| format!("{first} and {next}"))).collect()
}

/// The numbers of the first refused line and of the next one; after an end record all are 36.
fn next() -> Vec<String> {
    let both = |first| NUMBERS.iter().map(move |next| format!("{first} then {next}"));
    (30..=34).flat_map(both).chain(["36 then 36".to_string()]).collect()
}

/// All combinations of two words.
fn combined(first: &[&str], second: &[&str]) -> Vec<String> {
    first.iter().flat_map(|word| second.iter().map(move |other| format!("{word} {other}"))).collect()
}

/// A malformed line with its end set right.
fn mended(line: &[u8]) -> Vec<u8> {
    let end = line.iter().rposition(|byte| !b"\r\n".contains(byte)).map_or(0, |last| last + 1);
    [&line[..end], b"\n"].concat()
}

/// The numbers that refuse the line, those of a malformed line's record too if only its end is wrong.
fn refusals(file: &File, line: &[u8], room: usize) -> Vec<u32> {
    let mut numbers = file.refusals(line, room);
    if numbers.contains(&30) {
        numbers.extend(file.refusals(&mended(line), room).into_iter().filter(|number| (31..=34).contains(number)));
    }
    numbers
}

/// In what a line is malformed.
fn malformed(line: &[u8]) -> &'static str {
    let Some(body) = line.strip_suffix(b"\n") else {
        return match (record(&mended(line)), line.ends_with(b"\r")) {
            (None, _) => "unended and broken",
            (_, true) => "unended after CR",
            (_, false) => "unended",
        };
    };
    let body = match body {
        b"" => return "empty",
        b"\r" => return "empty with CR",
        [before @ .., b'\r'] => before,
        _ => body,
    };
    match body {
        [.., b'\r'] => "CR CR LF",
        [b'\r', ..] => "CR in front",
        _ if body.contains(&b'\r') => "CR inside",
        [b':', digits @ ..] => malformed_digits(digits),
        _ => "no colon",
    }
}

/// In what the characters after the colon are malformed.
fn malformed_digits(digits: &[u8]) -> &'static str {
    match digits.iter().find(|character| !character.is_ascii_hexdigit()) {
        Some(b':') => return "second colon",
        Some(b'/' | b'@' | b'G' | b'`' | b'g') => return "character beside the digits or letters",
        Some(b' ' | b'\t') => return "blank",
        Some(0x80..) => return "byte over 7F",
        Some(_) => return "another character",
        None if digits.len() % 2 != 0 => return "odd digits",
        None if digits.len() < 10 => return "fewer than five bytes",
        None => {}
    }
    let count = std::str::from_utf8(&digits[..2]).ok().and_then(|count| usize::from_str_radix(count, 16).ok());
    match (digits.len() / 2).checked_signed_diff(count.expect("two hex digits are a number") + 5) {
        Some(-1) => "a byte too few",
        Some(1) => "a byte too many",
        Some(1..) => "bytes too many",
        _ => "bytes too few",
    }
}

/// How a sum is wrong.
fn wrong_sums(record: &Record) -> Vec<&'static str> {
    let without = record.sum.wrapping_sub(record.checksum);
    let ways = [
        ("one too high", record.sum == 1),
        ("one too low", record.sum == 0xFF),
        ("0 without the checksum", without == 0),
        ("checksum is the sum", without == record.checksum),
    ];
    let found: Vec<&str> = ways.into_iter().filter(|way| way.1).map(|way| way.0).collect();
    if found.is_empty() {
        vec!["otherwise wrong"]
    } else {
        found
    }
}

/// A type that isn't read, or not with so many bytes.
fn wrong_type(record: &Record) -> &'static str {
    match (record.kind, record.data.len()) {
        (0x02, _) => "02",
        (0x03, _) => "03",
        (0x05, _) => "05",
        (END, _) => "01 with data",
        (UPPER, 0) => "04 of 0",
        (UPPER, 1) => "04 of 1",
        (UPPER, _) => "04 of more",
        _ => "another",
    }
}

/// Where a record's bytes lie that 33 refuses.
fn outside(addresses: &Range<u64>, room: usize) -> Vec<&'static str> {
    let end = FIRST + room as u64;
    let crosses = |place| addresses.start < place && place < addresses.end;
    let [shorter, to_there, longer] = [room < MAX_BYTES, room == MAX_BYTES, room > MAX_BYTES];
    let places = [
        ("just below the code", addresses.end == FIRST),
        ("from below into the code", crosses(FIRST)),
        ("just past the area", shorter && addresses.start == end),
        ("across the area's end", shorter && addresses.start >= FIRST && crosses(end)),
        ("just past the block with the area to there", to_there && addresses.start == PAST),
        ("across the block's end with the area to there", to_there && crosses(PAST)),
        ("just past the block with the area longer", longer && addresses.start == PAST),
        ("across the block's end with the area longer", longer && crosses(PAST)),
    ];
    places.into_iter().filter(|place| place.1).map(|place| place.0).collect()
}

/// Which of a record's addresses were given before, and whether with equal bytes.
fn again(file: &File, record: &Record) -> String {
    let addresses = file.addresses(record);
    let before: Vec<Option<&u8>> = addresses.map(|address| file.given.get(&address)).collect();
    let count = before.iter().flatten().count();
    let which = match count {
        _ if count == before.len() => "all",
        1 if before[0].is_some() => "first",
        1 if before[before.len() - 1].is_some() => "last",
        _ => "others",
    };
    let equal = before.iter().zip(&record.data).all(|(before, byte)| before.is_none_or(|before| before == byte));
    format!("{which} {}", if equal { EQUAL[0] } else { EQUAL[1] })
}

/// What a line after the end record is.
fn past_end(line: &[u8]) -> &'static str {
    match (line, record(line)) {
        (b"\n" | b"\r\n", _) => "empty",
        (_, None) if line.ends_with(b"\n") => "malformed",
        (_, None) => "unended",
        (_, Some(Record { kind: DATA, .. })) => "00",
        (_, Some(Record { kind: END, .. })) => "01",
        (_, Some(Record { kind: UPPER, .. })) => "04",
        _ => "another type",
    }
}

/// Which of two things are there: only the first, only the second, or both.
fn one_or_both(first: bool, second: bool) -> Option<usize> {
    match (first, second) {
        (true, false) => Some(0),
        (false, true) => Some(1),
        (true, true) => Some(2),
        (false, false) => None,
    }
}

/// How a text is written, if it has letters.
fn writing(text: &[u8]) -> Option<String> {
    let both = lines(text).filter(|line| line.ends_with(b"\r\n")).count();
    let ends = one_or_both(both < lines(text).count(), both > 0)?;
    let small = text.iter().any(u8::is_ascii_lowercase);
    let letters = one_or_both(text.iter().any(u8::is_ascii_uppercase), small)?;
    Some(format!("{} {}", ENDS[ends], LETTERS[letters]))
}

/// A record taken, with the addresses of its bytes.
struct Taken {
    record: Record,
    addresses: Range<u64>,
}

impl Taken {
    /// The upper half that the record sets.
    fn half(&self) -> Option<u16> {
        (self.record.kind == UPPER).then(|| u16::from_be_bytes([self.record.data[0], self.record.data[1]]))
    }
}

/// A file gone through to its end, refused lines left out.
struct Walk {
    room: usize,
    file: File,
    taken: Vec<Taken>,
    /// The first number of each refused line.
    numbers: Vec<u32>,
    shapes: Vec<Shape>,
}

impl Walk {
    /// Goes through the text.
    fn new(text: &[u8], room: usize) -> Self {
        let (file, taken, numbers, shapes) = (File::default(), Vec::new(), Vec::new(), Vec::new());
        let mut walk = Walk { room, file, taken, numbers, shapes };
        lines(text).for_each(|line| walk.line(line));
        if walk.number() == 0 {
            walk.accepted(text);
        }
        walk.lacks(text);
        walk.areas();
        if let [first, next, ..] = walk.numbers[..] {
            walk.add(Kind::Next, format!("{first} then {next}"));
        }
        walk
    }

    /// The number that the file gives.
    fn number(&self) -> u32 {
        match self.numbers.first() {
            Some(&number) => number,
            None if !self.file.ended => 35,
            None if self.file.given.is_empty() => 37,
            None => 0,
        }
    }

    /// Adds a shape.
    fn add(&mut self, kind: Kind, name: impl Into<String>) {
        self.shapes.push((kind, name.into()));
    }

    /// Adds a shape if it is there.
    fn add_if(&mut self, there: bool, kind: Kind, name: &str) {
        if there {
            self.add(kind, name);
        }
    }

    /// Goes on by one line.
    fn line(&mut self, line: &[u8]) {
        let refusals = refusals(&self.file, line, self.room);
        match refusals.first() {
            Some(&number) => {
                if self.numbers.is_empty() {
                    self.refused(line, &refusals);
                }
                self.numbers.push(number);
            }
            None => {
                let record = record(line).expect("a line that isn't refused holds a record");
                let addresses = self.file.addresses(&record);
                self.file.take(&record);
                self.taken.push(Taken { record, addresses });
            }
        }
    }

    /// Adds the shapes of the first refused line.
    fn refused(&mut self, line: &[u8], refusals: &[u32]) {
        match refusals {
            [number] => self.add(Kind::Wrong, number.to_string()),
            [first, others @ ..] => others.iter().for_each(|next| self.add(Kind::Wrong, format!("{first} and {next}"))),
            [] => {}
        }
        match (refusals[0], record(line)) {
            (36, _) => self.add(Kind::PastEnd, past_end(line)),
            (31, Some(record)) => wrong_sums(&record).into_iter().for_each(|way| self.add(Kind::Sums, way)),
            (32, Some(record)) => self.add(Kind::Types, wrong_type(&record)),
            (33, Some(record)) => self.outside(&record),
            (34, Some(record)) => self.add(Kind::Again, again(&self.file, &record)),
            _ => self.add(Kind::Malformed, malformed(line)),
        }
    }

    /// Adds the shapes of a record that 33 refuses.
    fn outside(&mut self, record: &Record) {
        let addresses = self.file.addresses(record);
        outside(&addresses, self.room).into_iter().for_each(|place| self.add(Kind::Places, place));
        let set = self.taken.iter().any(|taken| taken.half().is_some());
        let half = match self.file.upper {
            1 => None,
            0 if !set => Some("data before any 04"),
            0 => Some("data under 0"),
            2 => Some("data under 2"),
            0x0100 => Some("data under 0100"),
            _ => Some("data under another"),
        };
        half.into_iter().for_each(|half| self.add(Kind::Halves, half));
        let one = self.room > 0 && self.room < MAX_BYTES && addresses.end == FIRST + self.room as u64 + 1;
        self.add_if(one && addresses.start >= FIRST, Kind::Areas, "one byte too few");
    }

    /// Adds the shapes of what the file lacks.
    fn lacks(&mut self, text: &[u8]) {
        let (number, data) = (self.number(), !self.file.given.is_empty());
        let empty = self.taken.iter().any(|taken| taken.record.kind == DATA);
        let refused = (30..=34).contains(&number);
        self.add_if(text.is_empty(), Kind::Lacks, "no line");
        self.add_if(number == 35 && data, Kind::Lacks, "35 with data");
        self.add_if(number == 35 && !data && !text.is_empty(), Kind::Lacks, "35 without data");
        self.add_if(number == 37 && !empty, Kind::Lacks, "37 without type 00");
        self.add_if(number == 37 && empty, Kind::Lacks, "37 with type 00");
        self.add_if(refused && !self.file.ended, Kind::Lacks, "30 to 34 without end record");
        self.add_if(refused && !data, Kind::Lacks, "30 to 34 without data");
        self.add_if(number == 36 && !data, Kind::Lacks, "36 without data");
    }

    /// Adds the shapes of the area's length.
    fn areas(&mut self) {
        let (number, room) = (self.number(), self.room);
        let refused = number != 0;
        self.add_if(room == MAX_BYTES && !refused, Kind::Areas, "65536 accepted");
        self.add_if(room == MAX_BYTES && refused, Kind::Areas, "65536 refused");
        self.add_if(room > MAX_BYTES && !refused, Kind::Areas, "longer accepted");
        self.add_if(room > MAX_BYTES && refused, Kind::Areas, "longer refused");
        self.add_if(room == 0 && number == 33, Kind::Areas, "0 with data");
        self.add_if(room == 0 && number == 37, Kind::Areas, "0 without data");
        if !refused {
            let more = match room - self.length() {
                0 => "exactly enough",
                1 => "one byte more",
                _ => "more",
            };
            self.add(Kind::Areas, more);
        }
    }

    /// The length of an accepted file's code.
    fn length(&self) -> usize {
        self.file.given.last_key_value().map_or(0, |(highest, _)| (highest + 1 - FIRST) as usize)
    }

    /// Adds the shapes of an accepted file.
    fn accepted(&mut self, text: &[u8]) {
        writing(text).into_iter().for_each(|way| self.add(Kind::Writing, way));
        self.gaps();
        self.halves();
        self.order();
        let taken = std::mem::take(&mut self.taken);
        taken.iter().for_each(|taken| self.record(taken));
        self.taken = taken;
        self.add_if(self.file.given.len() == MAX_BYTES, Kind::Long, "all 65536 bytes");
    }

    /// Adds the shapes of an accepted file's gaps.
    fn gaps(&mut self) {
        let addresses: Vec<u64> = self.file.given.keys().copied().collect();
        let front = addresses[0] > FIRST;
        let between = addresses.windows(2).filter(|pair| pair[0] + 1 < pair[1]).count();
        let gaps = match (front, between) {
            (false, 0) => "none",
            (true, 0) => "one in front",
            (false, 1) => "one between",
            _ => "many",
        };
        self.add(Kind::Gaps, gaps);
    }

    /// Adds the shapes of an accepted file's upper halves.
    fn halves(&mut self) {
        let halves: Vec<u16> = self.taken.iter().filter_map(Taken::half).collect();
        let with_data = |taken: &Taken| taken.record.kind == DATA && !taken.record.data.is_empty();
        let [first, last] = [self.taken.iter().position(with_data), self.taken.iter().rposition(with_data)]
            .map(|place| place.expect("an accepted file has a byte"));
        let other = |taken: &Taken| taken.half().is_some_and(|half| half != 1);
        let between = self.taken[first..last].iter().any(other);
        let after = self.taken[last..].iter().any(other);
        let offset = |kind| self.taken.iter().any(|taken| taken.record.kind == kind && taken.record.offset != 0);
        let [offset_of_04, offset_of_01] = [UPPER, END].map(offset);
        self.add_if(halves == [1], Kind::Halves, "1 once");
        self.add_if(halves.windows(2).any(|pair| pair == [1, 1]), Kind::Halves, "1 again");
        self.add_if(halves.contains(&0), Kind::Halves, "0 set");
        self.add_if(halves.contains(&2), Kind::Halves, "2 set");
        self.add_if(halves.contains(&0x0100), Kind::Halves, "0100 set");
        self.add_if(halves.iter().any(|half| ![0, 1, 2, 0x0100].contains(half)), Kind::Halves, "another set");
        self.add_if(between, Kind::Halves, "changed between data");
        self.add_if(after, Kind::Halves, "changed after data");
        self.add_if(offset_of_04, Kind::Halves, "04 with an offset");
        self.add_if(offset_of_01, Kind::Halves, "01 with an offset");
    }

    /// Adds the shape of the order of an accepted file's data records.
    fn order(&mut self) {
        let data = self.taken.iter().filter(|taken| taken.record.kind == DATA && !taken.record.data.is_empty());
        let starts: Vec<u64> = data.map(|taken| taken.addresses.start).collect();
        if starts.len() > 1 {
            self.add(Kind::Records, if starts.is_sorted() { "in order" } else { "out of order" });
        }
    }

    /// Adds the shapes of an accepted file's record.
    fn record(&mut self, taken: &Taken) {
        let Taken { record, addresses } = taken;
        self.add_if(record.checksum == 0, Kind::Sums, "checksum 0");
        if record.kind != DATA {
            return;
        }
        match record.data.len() {
            0 => self.add(Kind::Records, "no byte"),
            1 => self.add(Kind::Records, "1 byte"),
            2..=16 => self.add(Kind::Records, "2 to 16 bytes"),
            255 => self.add(Kind::Long, "255 bytes in a record"),
            _ => self.add(Kind::Records, "17 to 254 bytes"),
        }
        if record.data.is_empty() {
            self.add_if(addresses.start < FIRST, Kind::Places, "no byte below the code");
            self.add_if(addresses.start >= PAST, Kind::Places, "no byte past the block");
            return;
        }
        self.add_if(addresses.start == FIRST, Kind::Places, "first of the area");
        self.add_if(addresses.end == FIRST + self.room as u64, Kind::Places, "last of the area");
        if addresses.end == PAST {
            let longer = self.room > MAX_BYTES;
            self.add_if(!longer, Kind::Long, "last of the block with the area to there");
            self.add_if(longer, Kind::Long, "last of the block with the area longer");
        }
    }
}

/// Counts of the shapes of hex files.
pub(super) struct Hex {
    groups: Vec<Group>,
}

impl Hex {
    /// Nothing counted yet.
    pub(super) fn new() -> Self {
        let named = |names: &[&str]| names.iter().map(ToString::to_string).collect();
        let groups: [(&str, Vec<String>); 15] = [
            ("wrong hex lines, with what else is wrong there", wrong()),
            ("first and next refused hex lines", next()),
            ("kinds of malformed hex line", named(&MALFORMED)),
            ("sums of hex lines", named(&SUMS)),
            ("types refused in hex lines", named(&TYPES)),
            ("places of hex records", named(&PLACES)),
            ("hex addresses given before", combined(&AGAIN, &EQUAL)),
            ("hex lines after the end record", named(&PAST_END)),
            ("lacks of hex files", named(&LACKS)),
            ("ways of writing accepted hex files", combined(&ENDS, &LETTERS)),
            ("records of accepted hex files", named(&RECORDS)),
            ("upper halves of hex files", named(&HALVES)),
            ("gaps of accepted hex files", named(&GAPS)),
            ("areas of hex files", named(&AREAS)),
            ("hex files too long for a vector line", named(&LONG)),
        ];
        Hex {
            groups: groups.into_iter().map(|(title, names)| Group::new(title.to_string(), names.into_iter())).collect(),
        }
    }

    /// The place of a shape in its group.
    fn place(&self, (kind, name): &Shape) -> usize {
        let shapes = &self.groups[*kind as usize].shapes;
        shapes.iter().position(|shape| shape.0 == *name).unwrap_or_else(|| panic!("no shape {name}"))
    }

    /// Counts a file read with an area of this length, and gives back its number.
    pub(super) fn read(&mut self, text: &[u8], room: usize) -> u32 {
        let walk = Walk::new(text, room);
        for shape in &walk.shapes {
            let place = self.place(shape);
            self.groups[shape.0 as usize].count(place);
        }
        walk.number()
    }

    /// Whether the file has a shape that never came.
    pub(super) fn is_new(&self, text: &[u8], room: usize) -> bool {
        let came = |shape: &Shape| self.groups[shape.0 as usize].shapes[self.place(shape)].1 > 0;
        !Walk::new(text, room).shapes.iter().all(came)
    }

    /// Whether every shape came that a vector line has room for.
    pub(super) fn has_all_short(&self) -> bool {
        self.groups[..Kind::Long as usize].iter().all(Group::is_full)
    }

    /// The groups of shapes.
    pub(super) fn groups(&self) -> impl Iterator<Item = &Group> {
        self.groups.iter()
    }
}
