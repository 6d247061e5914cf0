//! A program with Sangolid's C interface around steps of its own.

use partner::check::check;
use partner::compare::{machine_in, state_words, Other, ANSWER_WORDS, STATE_WORDS, WRONG_AREA};
use partner::hex::read;
use partner::machine::Machine;
use partner::run::refusals;

/// How steps ended: machine, steps, number and address.
pub type Ended = (Machine, u64, u32, u32);

/// Takes steps from the machine until a stop or the budget's end; all else is the partner's.
pub struct Program<F: Fn(Machine, &[u8], &[u8], &mut [u8], u64) -> Ended>(pub F);

impl<F: Fn(Machine, &[u8], &[u8], &mut [u8], u64) -> Ended> Other for Program<F> {
    fn run(&self, state: &mut [u32], code: &[u8], constants: &[u8], area: &mut [u8], budget: u64) -> u32 {
        if state.len() != STATE_WORDS {
            return WRONG_AREA;
        }
        let machine = machine_in(state);
        let (machine, steps, number, address) = match refusals(&machine, code, constants, area, budget)[..] {
            [] => (self.0)(machine, code, constants, area, budget),
            [first, ..] => (machine, 0, first, 0),
        };
        state.copy_from_slice(&state_words(&machine, steps as u32, address));
        number
    }

    fn check(&self, code: &[u8], marks: &mut [u8], answer: &mut [u32]) -> u32 {
        if answer.len() != ANSWER_WORDS {
            return WRONG_AREA;
        }
        let verdict = check(code, marks);
        answer[0] = verdict.answer;
        verdict.number
    }

    fn hex(&self, text: &[u8], code: &mut [u8], answer: &mut [u32]) -> u32 {
        if answer.len() != ANSWER_WORDS {
            return WRONG_AREA;
        }
        let reading = read(text, code);
        answer[0] = reading.answer;
        reading.number
    }
}
