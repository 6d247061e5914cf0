//! The block check: whether code cuts into instructions and its displacements land on starts.

use crate::decode::{decode, Refusal};
use crate::machine::MAX_BYTES;

/// Number and answer: the count of instructions with number 0, else an offset.
#[derive(Clone, Copy, PartialEq, Eq, Debug)]
pub struct Verdict {
    pub number: u32,
    pub answer: u32,
}

/// Checks the code and marks the starts of its instructions if it is accepted.
pub fn check(code: &[u8], marks: &mut [u8]) -> Verdict {
    if code.is_empty() || code.len() > MAX_BYTES {
        return Verdict { number: 10, answer: 0 };
    }
    if marks.len() != code.len() {
        return Verdict { number: 14, answer: 0 };
    }
    marks.fill(0);
    let mut starts = vec![false; code.len()];
    let mut jumps = Vec::new();
    let mut count = 0;
    let mut at = 0;
    while at < code.len() {
        match decode(&code[at..]) {
            Ok(instruction) => {
                let next = at + instruction.length as usize;
                if let Some(displacement) = instruction.displacement() {
                    jumps.push((at, next as i64 + i64::from(displacement as i32)));
                }
                starts[at] = true;
                count += 1;
                at = next;
            }
            Err(Refusal::Cut) => return Verdict { number: 21, answer: at as u32 },
            Err(Refusal::NoSuch) => return Verdict { number: 22, answer: at as u32 },
        }
    }
    for (at, target) in jumps {
        let lands = usize::try_from(target).is_ok_and(|target| starts.get(target) == Some(&true));
        if !lands {
            return Verdict { number: 23, answer: at as u32 };
        }
    }
    for (mark, start) in marks.iter_mut().zip(starts) {
        *mark = u8::from(start);
    }
    Verdict { number: 0, answer: count }
}
