//! The coverage counts the shapes of hex files and shows holes.

use partner::coverage::Coverage;

const WRONG: &str = "wrong hex lines";
const NEXT: &str = "first and next refused hex lines";
const MALFORMED: &str = "kinds of malformed hex line";
const SUMS: &str = "sums of hex lines";
const TYPES: &str = "types refused in hex lines";
const PLACES: &str = "places of hex records";
const AGAIN: &str = "hex addresses given before";
const PAST_END: &str = "hex lines after the end record";
const LACKS: &str = "lacks of hex files";
const WRITING: &str = "ways of writing accepted hex files";
const RECORDS: &str = "records of accepted hex files";
const HALVES: &str = "upper halves of hex files";
const GAPS: &str = "gaps of accepted hex files";
const AREAS: &str = "areas of hex files";
const LONG: &str = "hex files too long for a vector line";

/// Sets the upper half to 0, 1, 2 and 0100h.
const HALF_0: &str = ":020000040000FA\n";
const HALF_1: &str = ":020000040001F9\n";
const HALF_2: &str = ":020000040002F8\n";
const HALF_0100: &str = ":020000040100F9\n";
/// The byte 07h at code offset 0, and 08h at 1.
const BYTE_0: &str = ":0100000007F8\n";
const BYTE_1: &str = ":0100010008F6\n";
const END: &str = ":00000001FF\n";

/// The shapes of a group that never came.
fn holes(coverage: &Coverage, title: &str) -> Vec<String> {
    let report = coverage.to_string();
    let line = report.lines().find(|line| line.contains(title)).expect("the group has a line");
    let (_, holes) = line.split_once(", holes: ").expect("one file doesn't fill a group");
    holes.split(", ").map(str::to_string).collect()
}

/// A file of these lines with an area of this length counts just these shapes of the group.
fn counts(title: &str, lines: &[&str], length: usize, shapes: &[&str]) {
    let mut coverage = Coverage::new(std::iter::empty());
    let all = holes(&coverage, title);
    let text = lines.concat();
    assert!(coverage.is_new_hex(text.as_bytes(), length));
    coverage.read(text.as_bytes(), length);
    assert!(!coverage.is_new_hex(text.as_bytes(), length));
    assert!(!coverage.has_all_hex());
    let missing = holes(&coverage, title);
    let came: Vec<String> = all.into_iter().filter(|shape| !missing.contains(shape)).collect();
    assert_eq!(came, shapes, "{text:?}");
}

#[test]
fn numbers_are_counted() {
    let mut coverage = Coverage::new(std::iter::empty());
    for lines in [&[HALF_1, BYTE_0, END][..], &[HALF_1, BYTE_0, BYTE_0], &[END]] {
        coverage.read(lines.concat().as_bytes(), 8);
    }
    let holes = coverage.holes();
    let missing: Vec<&str> = holes.iter().map(String::as_str).filter(|hole| hole.starts_with("hex ")).collect();
    let expected = [30, 31, 32, 33, 35, 36].map(|number| format!("hex number {number}"));
    assert_eq!(missing, expected);
    assert!(coverage.to_string().contains("\n1\t\thex number 34\n"));
}

#[test]
fn wrong_lines_are_counted_with_what_else_is_wrong() {
    counts(WRONG, &[HALF_1, BYTE_0, END], 8, &[]);
    counts(WRONG, &["\n", BYTE_0], 8, &["30"]);
    counts(WRONG, &[HALF_1, ":0100000007F7\n"], 8, &["31"]);
    counts(WRONG, &[":0000000200\n"], 8, &["31 and 32"]);
    counts(WRONG, &[":00000002FE\n"], 8, &["32"]);
    counts(WRONG, &[BYTE_0], 8, &["33"]);
    counts(WRONG, &[":0100000007F7\n"], 8, &["31 and 33"]);
    counts(WRONG, &[HALF_1, BYTE_0, BYTE_0], 8, &["34"]);
    counts(WRONG, &[HALF_1, BYTE_0, ":0100000007F7\n"], 8, &["31 and 34"]);
    counts(WRONG, &[HALF_1, BYTE_0, ":020000000708EF\n"], 1, &["33 and 34"]);
    // Only the end is wrong.
    counts(WRONG, &[HALF_1, BYTE_0, BYTE_0.trim_end()], 8, &["30 and 34"]);
    counts(WRONG, &[":0100000007F8\r\r\n"], 8, &["30 and 33"]);
    counts(WRONG, &[":0000000200"], 8, &["30 and 31", "30 and 32"]);
    counts(WRONG, &[END, END], 8, &["36"]);
    counts(WRONG, &[END, BYTE_0], 8, &["36 and 33"]);
    counts(WRONG, &[END, ":00000002"], 8, &["36 and 30"]);
    counts(WRONG, &[END, ":0000000200\n"], 8, &["36 and 31", "36 and 32"]);
    counts(WRONG, &[HALF_1, BYTE_0, END, BYTE_0], 8, &["36 and 34"]);
}

#[test]
fn the_next_refused_line_is_counted() {
    counts(NEXT, &["\n", BYTE_0, END], 8, &["30 then 33"]);
    counts(NEXT, &[HALF_1, BYTE_0, BYTE_0, END, "\n"], 8, &["34 then 36"]);
    counts(NEXT, &[BYTE_0, HALF_1, BYTE_0, BYTE_0], 8, &["33 then 34"]);
    counts(NEXT, &[":0000000100\n", ":00000002FE\n", "\n"], 8, &["31 then 32"]);
    counts(NEXT, &[END, "\n", "\n"], 8, &["36 then 36"]);
    counts(NEXT, &[":00000002FE\n", HALF_1, BYTE_0, END], 8, &[]);
}

#[test]
fn kinds_of_malformed_line_are_counted() {
    for (line, kind) in [
        (":00000001FF", "unended"),
        (":00000001FF\r", "unended after CR"),
        (":00000001F", "unended and broken"),
        ("\n", "empty"),
        ("\r\n", "empty with CR"),
        (":00000001FF\r\r\n", "CR CR LF"),
        ("\r:00000001FF\n", "CR in front"),
        (":00000001FF\r:00000001FF\n", "CR inside"),
        ("00000001FF\n", "no colon"),
        ("::00000001FF\n", "second colon"),
        (":00000001Fg\n", "character beside the digits or letters"),
        (":00000001FF \n", "blank"),
        (":00000001Fß\n", "byte over 7F"),
        (":00000001Fx\n", "another character"),
        (":00000001F\n", "odd digits"),
        (":00000001\n", "fewer than five bytes"),
        (":01000001FE\n", "a byte too few"),
        (":FF000001FE\n", "bytes too few"),
        (":00000001FF00\n", "a byte too many"),
        (":00000001FF0000\n", "bytes too many"),
    ] {
        counts(MALFORMED, &[line], 8, &[kind]);
        counts(MALFORMED, &[END, line], 8, &[]);
    }
}

#[test]
fn sums_are_counted() {
    counts(SUMS, &[":0100000007F9\n"], 8, &["one too high"]);
    counts(SUMS, &[":0100000007F7\n"], 8, &["one too low"]);
    counts(SUMS, &[":01000000FF03\n"], 8, &["0 without the checksum"]);
    counts(SUMS, &[":010000000708\n"], 8, &["checksum is the sum"]);
    counts(SUMS, &[":010000000700\n"], 8, &["otherwise wrong"]);
    counts(SUMS, &[HALF_1, ":01000000FF00\n", END], 8, &["checksum 0"]);
    counts(SUMS, &[HALF_1, BYTE_0, END], 8, &[]);
}

#[test]
fn refused_types_are_counted() {
    for (line, name) in [
        (":00000002FE\n", "02"),
        (":00000003FD\n", "03"),
        (":00000005FB\n", "05"),
        (":00000006FA\n", "another"),
        (":0100000100FE\n", "01 with data"),
        (":00000004FC\n", "04 of 0"),
        (":0100000400FB\n", "04 of 1"),
        (":03000004000000F9\n", "04 of more"),
    ] {
        counts(TYPES, &[line], 8, &[name]);
    }
}

#[test]
fn places_are_counted() {
    counts(PLACES, &[HALF_1, BYTE_0, END], 8, &["first of the area"]);
    counts(PLACES, &[HALF_1, BYTE_1, END], 2, &["last of the area"]);
    counts(PLACES, &[HALF_1, ":020000000708EF\n", END], 2, &["first of the area", "last of the area"]);
    counts(PLACES, &[":0000000000\n", HALF_1, BYTE_1, END], 8, &["no byte below the code"]);
    counts(PLACES, &[HALF_2, ":0000000000\n", HALF_1, BYTE_1, END], 8, &["no byte past the block"]);
    counts(PLACES, &[":01FFFF000001\n"], 8, &["just below the code"]);
    counts(PLACES, &[":02FFFF00000000\n"], 8, &["from below into the code"]);
    counts(PLACES, &[HALF_1, BYTE_1], 1, &["just past the area"]);
    counts(PLACES, &[HALF_1, ":020000000708EF\n"], 1, &["across the area's end"]);
    counts(PLACES, &[HALF_1, BYTE_1, END], 8, &[]);
    let across = ":02FFFF00000000\n";
    counts(PLACES, &[HALF_2, BYTE_0], 65_536, &["just past the block with the area to there"]);
    counts(PLACES, &[HALF_1, across], 65_536, &["across the block's end with the area to there"]);
    counts(PLACES, &[HALF_2, BYTE_0], 65_537, &["just past the block with the area longer"]);
    counts(PLACES, &[HALF_1, across], 65_537, &["across the block's end with the area longer"]);
    counts(PLACES, &[HALF_2, BYTE_0], 65_535, &[]);
}

#[test]
fn addresses_given_before_are_counted() {
    // The bytes 07h 08h 09h at code offsets 1 to 3.
    let before = [HALF_1, ":03000100070809E4\n"].concat();
    for (line, shape) in [
        (":03000100070809E4\n", "all equal"),
        (":03000100070808E5\n", "all different"),
        (":0100020008F5\n", "all equal"),
        (":020003000907EB\n", "first equal"),
        (":020003000707ED\n", "first different"),
        (":020000000707F0\n", "last equal"),
        (":020000000708EF\n", "last different"),
        (":03000000070708E7\n", "others equal"),
        (":03000000070808E6\n", "others different"),
    ] {
        counts(AGAIN, &[&before, line], 8, &[shape]);
    }
}

#[test]
fn lines_after_the_end_record_are_counted() {
    for (line, shape) in [
        ("\n", "empty"),
        ("\r\n", "empty"),
        ("\r", "unended"),
        (":00000001FF", "unended"),
        (":\n", "malformed"),
        (BYTE_0, "00"),
        (END, "01"),
        (HALF_1, "04"),
        (":00000002FE\n", "another type"),
    ] {
        counts(PAST_END, &[END, line], 8, &[shape]);
    }
}

#[test]
fn what_files_lack_is_counted() {
    counts(LACKS, &[""], 8, &["no line"]);
    counts(LACKS, &[HALF_1, BYTE_0], 8, &["35 with data"]);
    counts(LACKS, &[HALF_1], 8, &["35 without data"]);
    counts(LACKS, &[END], 8, &["37 without type 00"]);
    counts(LACKS, &[":0000000000\n", END], 8, &["37 with type 00"]);
    counts(LACKS, &[HALF_1, BYTE_0, "\n"], 8, &["30 to 34 without end record"]);
    counts(LACKS, &["\n", END], 8, &["30 to 34 without data"]);
    counts(LACKS, &[END, END], 8, &["36 without data"]);
    counts(LACKS, &[HALF_1, BYTE_0, "\n", END], 8, &[]);
    counts(LACKS, &[HALF_1, BYTE_0, END], 8, &[]);
}

#[test]
fn ways_of_writing_are_counted() {
    let text = [HALF_1, BYTE_0, END].concat();
    let returned = text.replace('\n', "\r\n");
    counts(WRITING, &[&text], 8, &["LF capitals"]);
    counts(WRITING, &[&text.to_lowercase()], 8, &["LF small letters"]);
    counts(WRITING, &[&text.replacen('F', "f", 1)], 8, &["LF both cases"]);
    counts(WRITING, &[&returned], 8, &["CR LF capitals"]);
    counts(WRITING, &[&returned.to_lowercase()], 8, &["CR LF small letters"]);
    counts(WRITING, &[&returned.replacen('F', "f", 1)], 8, &["CR LF both cases"]);
    counts(WRITING, &[&text.replacen('\n', "\r\n", 1)], 8, &["both ends capitals"]);
    counts(WRITING, &[&text.replacen('\n', "\r\n", 1).to_lowercase()], 8, &["both ends small letters"]);
    counts(WRITING, &[&text], 0, &[]);
}

#[test]
fn records_are_counted() {
    counts(RECORDS, &[HALF_1, BYTE_0, END], 8, &["1 byte"]);
    counts(RECORDS, &[HALF_1, BYTE_0, BYTE_1, END], 8, &["1 byte", "in order"]);
    counts(RECORDS, &[HALF_1, BYTE_1, BYTE_0, END], 8, &["1 byte", "out of order"]);
    counts(RECORDS, &[HALF_1, ":00000500FB\n", BYTE_0, END], 8, &["no byte", "1 byte"]);
    counts(RECORDS, &[HALF_1, ":020000000708EF\n", END], 8, &["2 to 16 bytes"]);
    let line = |count: usize| format!(":{count:02X}000000{}{:02X}\n", "00".repeat(count), 0x100 - count);
    counts(RECORDS, &[HALF_1, &line(16), END], 300, &["2 to 16 bytes"]);
    counts(RECORDS, &[HALF_1, &line(17), END], 300, &["17 to 254 bytes"]);
    counts(RECORDS, &[HALF_1, &line(254), END], 300, &["17 to 254 bytes"]);
    counts(RECORDS, &[HALF_1, &line(255), END], 300, &[]);
    counts(LONG, &[HALF_1, &line(255), END], 300, &["255 bytes in a record"]);
}

#[test]
fn upper_halves_are_counted() {
    counts(HALVES, &[HALF_1, BYTE_0, END], 8, &["1 once"]);
    counts(HALVES, &[HALF_1, HALF_1, BYTE_0, END], 8, &["1 again"]);
    counts(HALVES, &[HALF_0, HALF_1, BYTE_0, END], 8, &["0 set"]);
    counts(HALVES, &[HALF_2, HALF_0100, HALF_1, BYTE_0, END], 8, &["2 set", "0100 set"]);
    counts(HALVES, &[":020000040101F8\n", HALF_1, BYTE_0, END], 8, &["another set"]);
    counts(HALVES, &[HALF_1, BYTE_0, HALF_2, HALF_1, BYTE_1, END], 8, &["2 set", "changed between data"]);
    counts(HALVES, &[HALF_1, BYTE_0, HALF_2, END], 8, &["2 set", "changed after data"]);
    counts(HALVES, &[":020001040001F8\n", BYTE_0, END], 8, &["1 once", "04 with an offset"]);
    counts(HALVES, &[HALF_1, BYTE_0, ":00000101FE\n"], 8, &["1 once", "01 with an offset"]);
    counts(HALVES, &[BYTE_0], 8, &["data before any 04"]);
    counts(HALVES, &[HALF_0, BYTE_0], 8, &["data under 0"]);
    counts(HALVES, &[HALF_2, BYTE_0], 8, &["data under 2"]);
    counts(HALVES, &[HALF_0100, BYTE_0], 8, &["data under 0100"]);
    counts(HALVES, &[":020000040101F8\n", BYTE_0], 8, &["data under another"]);
    counts(HALVES, &[HALF_1, BYTE_0], 0, &[]);
}

#[test]
fn gaps_are_counted() {
    let (at_3, at_5) = (":010003000AF2\n", ":010005000AF0\n");
    counts(GAPS, &[HALF_1, BYTE_0, BYTE_1, END], 8, &["none"]);
    counts(GAPS, &[HALF_1, BYTE_1, END], 8, &["one in front"]);
    counts(GAPS, &[HALF_1, at_3, BYTE_0, END], 8, &["one between"]);
    counts(GAPS, &[HALF_1, BYTE_0, at_3, at_5, END], 8, &["many"]);
    counts(GAPS, &[HALF_1, at_3, at_5, END], 8, &["many"]);
    counts(GAPS, &[HALF_1, at_3], 8, &[]);
}

#[test]
fn areas_are_counted() {
    let file = [HALF_1, BYTE_0, BYTE_1, END];
    counts(AREAS, &file, 0, &["0 with data"]);
    counts(AREAS, &[END], 0, &["0 without data"]);
    counts(AREAS, &file, 1, &["one byte too few"]);
    counts(AREAS, &file, 2, &["exactly enough"]);
    counts(AREAS, &file, 3, &["one byte more"]);
    counts(AREAS, &file, 4, &["more"]);
    counts(AREAS, &file, 65_536, &["more", "65536 accepted"]);
    counts(AREAS, &file, 65_537, &["more", "longer accepted"]);
    counts(AREAS, &["\n"], 65_536, &["65536 refused"]);
    counts(AREAS, &["\n"], 65_537, &["longer refused"]);
    counts(AREAS, &["\n"], 65_535, &[]);
}

#[test]
fn the_block_s_last_byte_is_counted() {
    let last = ":01FFFF000001\n";
    let to_there = "last of the block with the area to there";
    counts(LONG, &[HALF_1, last, END], 65_536, &[to_there]);
    counts(LONG, &[HALF_1, last, END], 65_537, &["last of the block with the area longer"]);
    counts(LONG, &[HALF_1, last, END], 65_535, &[]);
    let all: String = (0..=0xFFFF_u32)
        .map(|offset| {
            let sum = 1 + (offset >> 8) + (offset & 0xFF);
            format!(":01{offset:04X}0000{:02X}\n", sum.wrapping_neg() & 0xFF)
        })
        .collect();
    counts(LONG, &[HALF_1, &all, END], 65_536, &[to_there, "all 65536 bytes"]);
}
