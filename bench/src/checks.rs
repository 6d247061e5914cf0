//! The table of block checks.

use std::hint::black_box;

use partner::check::{check, Verdict};
use partner::compare::{Other, ANSWER_WORDS};
use partner::sangolid::Sangolid;

use crate::timing::{best, Work};

/// Sizes of the blocks in bytes.
const SIZES: [usize; 4] = [16, 256, 4_096, 65_536];

/// Instructions that a block is made of, again and again.
const PIECE: [u8; 16] = [
    0x8B, 0x44, 0x8E, 0x04, // 0: MOV EAX, [ESI+ECX*4+4]
    0x01, 0xC2, // 4: ADD EDX, EAX
    0x81, 0xC3, 0x78, 0x56, 0x34, 0x12, // 6: ADD EBX, 12345678h
    0x75, 0xF2, // 12: JNZ 0
    0x42, // 14: INC EDX
    0x90, // 15: NOP
];

/// Sangolid's check.
fn sangolid_check(code: &[u8], marks: &mut [u8]) -> Verdict {
    let mut answer = [0; ANSWER_WORDS];
    let number = Sangolid.check(code, marks, &mut answer);
    Verdict { number, answer: answer[0] }
}

/// Whether both checks find the same.
fn agree(code: &[u8]) -> bool {
    let (mut ours, mut theirs) = (vec![0; code.len()], vec![0; code.len()]);
    sangolid_check(code, &mut ours) == check(code, &mut theirs) && ours == theirs
}

/// One of the checks as a work on a block.
fn work(code: &[u8], check: fn(&[u8], &mut [u8]) -> Verdict) -> Work<'_> {
    let mut marks = vec![0; code.len()];
    Box::new(move || {
        black_box(check(black_box(code), &mut marks));
    })
}

/// Compares and times the checks of one block; tells whether they agree.
fn print_size(size: usize) -> bool {
    let code = PIECE.repeat(size / PIECE.len());
    if !agree(&code) {
        println!("{size:>9}{:>10}{:>10}{:>18}  DIFFER: partner", "-", "-", "-");
        return false;
    }
    let times = best(&mut [work(&code, sangolid_check), work(&code, check)], 1);
    let speed = |time: f64| 1e3 * size as f64 / time;
    println!("{size:>9}{:>10.1}{:>10.1}{:>18.2}  same", speed(times[0]), speed(times[1]), times[1] / times[0]);
    true
}

/// Prints the table of block checks and tells whether the programs agree.
pub fn print_checks() -> bool {
    println!("Block check: millions of bytes a second, best of several, and the ratio of the times.");
    println!();
    println!("{:>9}{:>10}{:>10}{:>18}  verdict and marks", "bytes", "Sangolid", "partner", "partner/Sangolid");
    let mut all_agree = true;
    for size in SIZES {
        all_agree &= print_size(size);
    }
    all_agree
}
