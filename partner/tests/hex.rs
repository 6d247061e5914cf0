//! Document 02's M-102, sentence by sentence: both sides of each edge, the order of the numbers, the untouched area.

use partner::hex::{read, Reading};

/// What fills an area before it is read into.
const BEFORE: u8 = 0xAA;
/// What fills gaps.
const GAP: u8 = 0x90;
/// Sets the upper half to 1.
const ONE: &str = ":020000040001F9\n";
/// The end record.
const END: &str = ":00000001FF\n";

/// A record whose checksum is off by so much, as a line.
fn spoilt(kind: u8, offset: u16, data: &[u8], off: u8) -> String {
    let [high, low] = offset.to_be_bytes();
    let bytes = [&[data.len() as u8, high, low, kind], data].concat();
    let sum = bytes.iter().fold(0, |sum: u8, byte| sum.wrapping_add(*byte));
    let checksum = sum.wrapping_neg().wrapping_add(off);
    let digits: String = bytes.iter().chain([&checksum]).map(|byte| format!("{byte:02X}")).collect();
    format!(":{digits}\n")
}

/// A sound record as a line.
fn line(kind: u8, offset: u16, data: &[u8]) -> String {
    spoilt(kind, offset, data, 0)
}

/// A line that sets the upper half.
fn upper(half: u16) -> String {
    line(4, 0, &half.to_be_bytes())
}

/// The text is accepted with an area of this length, as this code; the area beyond stays.
fn accepted(text: impl AsRef<[u8]>, length: usize, code: &[u8]) {
    let text = text.as_ref();
    let mut area = vec![BEFORE; length];
    let reading = read(text, &mut area);
    assert_eq!(reading, Reading { number: 0, answer: code.len() as u32 }, "{}", text.escape_ascii());
    assert!(area[..code.len()] == *code && area[code.len()..].iter().all(|&byte| byte == BEFORE));
}

/// The text is refused with an area of this length, by this number at this line; the area stays.
fn refused(text: impl AsRef<[u8]>, length: usize, number: u32, line: u32) {
    let text = text.as_ref();
    let mut area = vec![BEFORE; length];
    let reading = read(text, &mut area);
    assert_eq!(reading, Reading { number, answer: line }, "{}", text.escape_ascii());
    assert!(area.iter().all(|&byte| byte == BEFORE));
}

/// The line is refused by the number behind a line with one byte at code offset 0, whatever stands behind it.
fn refused_line(line: impl AsRef<[u8]>, number: u32) {
    let before = [ONE.as_bytes(), b":01000000AA55\n"].concat();
    refused([&before, line.as_ref()].concat(), 8, number, 3);
    if line.as_ref().ends_with(b"\n") {
        refused([&before, line.as_ref(), END.as_bytes()].concat(), 8, number, 3);
        refused([&before, line.as_ref(), b"\n", line.as_ref()].concat(), 8, number, 3);
    }
}

#[test]
fn records_of_types_00_01_and_04_are_read() {
    let code = [vec![GAP; 0x30], vec![0x02, 0x33, 0x7A]].concat();
    accepted(":020000040001F9\n:0300300002337A1E\n:00000001FF\n", 0x40, &code);
    accepted(":020000040001F9\n:0300000002337A4E\n:00000001FF\n", 3, &[0x02, 0x33, 0x7A]);
}

#[test]
fn hex_is_read_in_either_case() {
    let code = [0xAB, 0xCD, 0xEF];
    accepted(":020000040001F9\n:03000000ABCDEF96\n:00000001FF\n", 4, &code);
    accepted(":020000040001f9\n:03000000abcdef96\n:00000001ff\n", 4, &code);
    accepted(":020000040001f9\n:03000000aBcDEf96\n:00000001Ff\n", 4, &code);
}

#[test]
fn a_line_is_ended_by_lf_or_cr_lf() {
    accepted(":020000040001F9\r\n:01000000AA55\r\n:00000001FF\r\n", 1, &[0xAA]);
    accepted(":020000040001F9\n:01000000AA55\r\n:00000001FF\n", 1, &[0xAA]);
    for line in [":0100010055A9", ":0100010055A9\r", ":0100010055A9\r\r\n", ":0100010055A9\n\r", "\r:0100010055A9\n"] {
        let number_line = if line.ends_with("\n\r") { 4 } else { 3 };
        let text = [ONE, ":01000000AA55\n", line].concat();
        refused(&text, 8, 30, number_line);
    }
    // CR alone makes two lines one.
    refused(":020000040001F9\r:01000000AA55\n:00000001FF\n", 8, 30, 1);
    // The last line too must be ended.
    refused(":020000040001F9\n:01000000AA55\n:00000001FF", 8, 30, 3);
    refused(":020000040001F9\n:01000000AA55\n:00000001FF\r", 8, 30, 3);
}

#[test]
fn each_line_is_exactly_one_record() {
    for line in [
        "\n",
        "\r\n",
        " \n",
        ":\n",
        "0100010055A9\n",
        "::0100010055A9\n",
        ";0100010055A9\n",
        " :0100010055A9\n",
        ":0100010055A9 \n",
        ":01 00010055A9\n",
        ":0100010055A\n",
        ":0100010055A90\n",
        ":0100010055A900\n",
        ":01000100A9\n",
        ":0100010055\n",
        ":010001\n",
        ":00000000\n",
        ":0200010055A8\n",
        ":0000010055AA\n",
        ":0100010055G9\n",
        ":010001005/A9\n",
        ":010001005:A9\n",
        ":010001005@A9\n",
        ":010001005`A9\n",
        ":010001005gA9\n",
        ":0100010055A9:0100020055A8\n",
        ":01\r00010055A9\n",
        ":0100010055A9\0\n",
        ":+100010055A9\n",
    ] {
        refused_line(line, 30);
    }
    refused_line(b":0100010055A\xB9\n", 30);
    refused_line(b"\xEF\xBB\xBF:0100010055A9\n", 30);
    refused("\n", 8, 30, 1);
    refused(":", 8, 30, 1);
}

#[test]
fn records_have_0_to_255_bytes() {
    for length in [0, 1, 254, 255] {
        let data: Vec<u8> = (0..length).map(|byte| byte as u8 ^ 0x5A).collect();
        let text = [ONE, &line(0, 1, &data), &line(0, 0, &[7]), END].concat();
        accepted(&text, 300, &[&[7], data.as_slice()].concat());
    }
}

#[test]
fn the_bytes_checksum_included_sum_to_0() {
    for off in 1..=0xFF {
        refused_line(spoilt(0, 1, &[0x55], off), 31);
        refused_line(spoilt(4, 0, &[0, 1], off), 31);
        refused_line(spoilt(1, 0, &[], off), 31);
    }
    // Without the checksum these sum to 0.
    accepted([ONE, ":01000100FE00\n", END].concat(), 2, &[GAP, 0xFE]);
    refused_line(":01000100FE01\n", 31);
    // The checksum is the sum itself.
    refused_line(":010001005557\n", 31);
    // The carry out of 8 bits is dropped.
    accepted([ONE, ":04000000FFFFFFFF00\n", END].concat(), 4, &[0xFF; 4]);
}

#[test]
fn other_types_and_other_lengths_of_01_and_04_are_refused() {
    for kind in (0..=0xFF).filter(|kind| ![0, 1, 4].contains(kind)) {
        refused_line(line(kind, 1, &[]), 32);
        refused_line(line(kind, 1, &[0, 1]), 32);
        refused_line(line(kind, 0, &[0, 1, 0, 0]), 32);
    }
    for length in 1..=0xFF {
        refused_line(line(1, 0, &vec![0; length]), 32);
    }
    for length in (0..=0xFF).filter(|&length| length != 2) {
        refused_line(line(4, 0, &vec![0; length]), 32);
    }
}

#[test]
fn offsets_of_01_and_04_are_ignored() {
    for offset in [1, 0x8000, 0xFFFF] {
        let text = [line(4, offset, &[0, 1]), line(0, 0, &[7]), line(1, offset, &[])].concat();
        accepted(text, 1, &[7]);
    }
}

#[test]
fn the_upper_half_starts_at_0_and_is_set_high_byte_first() {
    refused([&line(0, 0, &[7]), ONE, END].concat(), 8, 33, 1);
    refused([&upper(0), &line(0, 0, &[7]), END].concat(), 8, 33, 2);
    refused([&upper(2), &line(0, 0, &[7]), END].concat(), 8, 33, 2);
    refused([&upper(0x0100), &line(0, 0, &[7]), END].concat(), 8, 33, 2);
    refused([&upper(0x0101), &line(0, 0, &[7]), END].concat(), 8, 33, 2);
    accepted([&upper(0xFFFF), &upper(1), &upper(1), &line(0, 0, &[7]), &upper(2), END].concat(), 8, &[7]);
    accepted([ONE, &line(0, 1, &[8]), &upper(0), ONE, &line(0, 0, &[7]), END].concat(), 8, &[7, 8]);
    // It is set, not added to.
    refused([ONE, ONE, &upper(2), &line(0, 0, &[7]), END].concat(), 8, 33, 4);
}

#[test]
fn a_byte_outside_the_area_is_refused() {
    accepted([ONE, &line(0, 7, &[7]), END].concat(), 8, &[GAP, GAP, GAP, GAP, GAP, GAP, GAP, 7]);
    refused([ONE, &line(0, 8, &[7]), END].concat(), 8, 33, 2);
    accepted([ONE, &line(0, 6, &[6, 7]), END].concat(), 8, &[GAP, GAP, GAP, GAP, GAP, GAP, 6, 7]);
    refused([ONE, &line(0, 7, &[6, 7]), END].concat(), 8, 33, 2);
    refused([ONE, &line(0, 0, &[7]), END].concat(), 0, 33, 2);
    accepted([ONE, &line(0, 0, &[7]), END].concat(), 1, &[7]);
    // Just below the code, and from there into it.
    refused([line(0, 0xFFFF, &[7]), END.to_string()].concat(), 8, 33, 1);
    refused([line(0, 0xFFFF, &[7, 8]), END.to_string()].concat(), 8, 33, 1);
    refused([line(0, 0xFFFE, &[7, 8, 9]), END.to_string()].concat(), 8, 33, 1);
}

#[test]
fn a_byte_above_0001ffff_is_refused_even_if_the_area_has_it() {
    let whole = [vec![GAP; 0xFFFF], vec![7]].concat();
    for length in [0x1_0000, 0x1_0001, 0x2_0000] {
        accepted([ONE, &line(0, 0xFFFF, &[7]), END].concat(), length, &whole);
        refused([ONE, &line(0, 0xFFFF, &[7, 8]), END].concat(), length, 33, 2);
        refused([&upper(2), &line(0, 0, &[7]), END].concat(), length, 33, 2);
        refused([line(0, 0xFFFF, &[7, 8]), END.to_string()].concat(), length, 33, 1);
    }
    refused([ONE, &line(0, 0xFFFF, &[7]), END].concat(), 0xFFFF, 33, 2);
    // The highest address of all, and past it.
    refused([&upper(0xFFFF), &line(0, 0xFFFF, &[7; 255]), END].concat(), 0x1_0000, 33, 2);
}

#[test]
fn a_record_without_bytes_lies_anywhere() {
    for (half, offset) in [(0, 0), (0, 0xFFFF), (1, 8), (1, 0xFFFF), (2, 0), (0xFFFF, 0xFFFF)] {
        let text = [&upper(half), &line(0, offset, &[]), ONE, &line(0, 0, &[7]), &line(0, 0, &[]), END].concat();
        accepted(text, 1, &[7]);
    }
}

#[test]
fn an_address_given_before_is_refused_even_with_equal_bytes() {
    let first = [ONE, &line(0, 2, &[1, 2, 3])].concat();
    for (offset, data) in [
        (2, &[1, 2, 3][..]),
        (2, &[9, 9, 9]),
        (2, &[1]),
        (3, &[2]),
        (4, &[3]),
        (4, &[9]),
        (0, &[7, 7, 1]),
        (4, &[3, 7]),
        (0, &[0, 0, 1, 2, 3, 0]),
    ] {
        refused([&first, &line(0, offset, data), END].concat(), 8, 34, 3);
        refused([&first, &upper(0), ONE, &line(0, offset, data), END].concat(), 8, 34, 5);
    }
    accepted([&first, &line(0, 0, &[8, 9]), &line(0, 5, &[4]), END].concat(), 8, &[8, 9, 1, 2, 3, 4]);
    // Not the record before, but one before that.
    refused([&first, &line(0, 5, &[4]), &line(0, 4, &[3]), END].concat(), 8, 34, 4);
    // A gap isn't given.
    accepted([&first, &line(0, 6, &[4]), &line(0, 5, &[9]), END].concat(), 8, &[GAP, GAP, 1, 2, 3, 9, 4]);
}

#[test]
fn gaps_are_filled_and_the_area_beyond_stays() {
    let text = [ONE, &line(0, 5, &[5]), &line(0, 1, &[0x90, 0]), END].concat();
    for length in [6, 7, 300, 0x1_0000, 0x1_0001] {
        accepted(&text, length, &[GAP, 0x90, 0, GAP, GAP, 5]);
    }
    refused(&text, 5, 33, 2);
    // The area may be longer than code can be.
    accepted([ONE, &line(0, 0xFFFE, &[1]), END].concat(), 0x2_0000, &[vec![GAP; 0xFFFE], vec![1]].concat());
}

#[test]
fn without_an_end_record_35_comes_then_without_a_byte_37() {
    refused("", 8, 35, 0);
    refused("", 0, 35, 0);
    refused(ONE, 8, 35, 0);
    refused([ONE, &line(0, 0, &[7])].concat(), 8, 35, 0);
    refused([ONE, &line(0, 0, &[])].concat(), 8, 35, 0);
    refused(END, 8, 37, 0);
    refused(END, 0, 37, 0);
    refused([ONE, END].concat(), 8, 37, 0);
    refused([ONE, &line(0, 0, &[]), END].concat(), 8, 37, 0);
    accepted([ONE, &line(0, 0, &[7]), END].concat(), 8, &[7]);
}

#[test]
fn any_line_after_the_end_record_is_refused() {
    let before = [ONE, &line(0, 0, &[7]), END].concat();
    for line in [
        END,
        ONE,
        "\n",
        "\r\n",
        "\r",
        ":",
        " ",
        "\0",
        ":0100010055A9\n",
        ":0100010055A9",
        ":0100010055AA\n",
        ":0000000200\n",
        ":0100080055A2\n",
        ":010000000AF5\n",
    ] {
        refused([&before, line].concat(), 8, 36, 4);
        refused([&before, "\n", line].concat(), 8, 36, 4);
        // 36 comes before 37 too.
        refused([ONE, END, line].concat(), 8, 36, 3);
    }
}

#[test]
fn within_a_line_30_to_34_come_in_order() {
    // One byte at offset 0, an area of 8: each record is wrong in more than one way.
    refused_line(spoilt(2, 0, &[1], 1), 31);
    refused_line(spoilt(0, 8, &[1], 1), 31);
    refused_line(spoilt(0, 0, &[1], 1), 31);
    refused_line(spoilt(4, 0, &[1], 1), 31);
    refused_line(line(2, 8, &[1]), 32);
    refused_line(line(0, 0, &[1; 9]), 33);
    refused_line(line(0, 0, &[0xAA; 255]), 33);
    let before = [ONE, &line(0, 0, &[7]), &upper(0)].concat();
    refused([&before, &line(0, 0xFFFF, &[7, 7]), END].concat(), 8, 33, 4);
    // Without its end each is malformed.
    for record in [spoilt(0, 1, &[1], 1), line(2, 1, &[]), line(0, 8, &[1]), line(0, 0, &[1])] {
        refused_line(record.trim_end(), 30);
        refused_line(record.replace('\n', "\r\r\n"), 30);
    }
}

#[test]
fn the_first_refused_line_decides() {
    let wrong = ["\n".to_string(), spoilt(0, 1, &[1], 1), line(5, 0, &[]), line(0, 8, &[1]), line(0, 0, &[1])];
    for (first, number) in wrong.iter().zip(30..) {
        for next in &wrong {
            let text = [ONE, &line(0, 0, &[7]), first, next].concat();
            refused([&text, END].concat(), 8, number, 3);
            refused([&text, END, END].concat(), 8, number, 3);
            refused(&text, 8, number, 3);
            refused([ONE, &line(0, 0, &[7]), END, first, next].concat(), 8, 36, 4);
        }
    }
    // A refused line's bytes and upper half count for nothing before it.
    refused([&upper(0), &line(0, 0, &[7]), ONE].concat(), 8, 33, 2);
}

#[test]
fn lines_are_counted_from_1() {
    let many: String = (0..1000).map(|offset| line(0, offset, &[offset as u8])).collect();
    let code: Vec<u8> = (0..1000).map(|offset| offset as u8).collect();
    accepted([ONE, &many, END].concat(), 1000, &code);
    refused([ONE, &many, END].concat(), 999, 33, 1001);
    refused([ONE, &many, "\n", END].concat(), 1000, 30, 1002);
    refused([ONE, &many, END, END].concat(), 1000, 36, 1003);
}
