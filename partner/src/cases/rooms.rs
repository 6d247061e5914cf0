//! Long blocks: rooms that begin at offsets equal modulo 64, gone through again and again.

use super::{Case, Generator, RunCase};
use crate::decode::decode;
use crate::machine::{write, Width, CODE_BASE, ECX, ESP, HOME, MAX_BYTES};
use crate::run::run;

/// Distances between the beginnings of neighbouring rooms.
const PITCHES: [usize; 5] = [64, 64, 128, 256, 1024];
/// Most bytes of a room's instructions; its way out takes less than the rest of 64.
const ROOM_BYTES: usize = 48;
/// Most rounds through the rooms.
const MOST_ROUNDS: usize = 40;
/// A budget that most blocks of rooms don't use up.
const AMPLE: u64 = 5000;

/// Adds a jump with a 4-byte displacement to a room that begins at the start.
fn add_jump(room: &mut Vec<u8>, start: usize, opcode: &[u8], target: usize) {
    room.extend(opcode);
    let next = start + room.len() + 4;
    room.extend((target as u32).wrapping_sub(next as u32).to_le_bytes());
}

impl Generator {
    /// A place outside code of this length that a slip could take for one inside.
    pub(super) fn outside(&mut self, length: usize) -> u32 {
        let past = CODE_BASE + MAX_BYTES as u32 + self.random.below(length) as u32;
        self.random.pick(&[0, u32::MAX, CODE_BASE - 1, HOME, CODE_BASE + length as u32, past])
    }

    /// An instruction that, tried once, goes on to the next one and leaves ECX and ESP alone.
    fn calm_instruction(&mut self, length: usize) -> Vec<u8> {
        loop {
            let bytes = self.block_instruction(length);
            if decode(&bytes).is_ok_and(|instruction| instruction.displacement().is_some()) {
                continue;
            }
            let mut trial = self.with_stack(bytes, length);
            let outcome = run(trial.machine, &trial.code, &trial.constants, &mut trial.data, 1);
            let kept = [ECX, ESP].map(usize::from).iter().all(|&at| outcome.machine.regs[at] == trial.machine.regs[at]);
            if kept && outcome.steps == 1 && outcome.machine.eip == CODE_BASE + trial.code.len() as u32 {
                return trial.code;
            }
        }
    }

    /// A few calm instructions.
    fn room(&mut self, length: usize) -> Vec<u8> {
        let count = self.random.between(1, 6);
        let mut room = Vec::new();
        for _ in 0..count {
            let bytes = self.calm_instruction(length);
            if room.len() + bytes.len() <= ROOM_BYTES {
                room.extend(bytes);
            }
        }
        room
    }

    /// The rooms' beginnings in the order in which they are gone through.
    fn beginnings(&mut self) -> Vec<usize> {
        let pitch = self.random.pick(&PITCHES);
        let front = self.random.below(64);
        let count = self.random.between(2, 8);
        let mut beginnings: Vec<usize> = (0..count).map(|room| front + room * pitch).collect();
        for last in (1..count).rev() {
            beginnings.swap(last, self.random.below(last + 1));
        }
        beginnings
    }

    /// Code that goes through its rooms, DEC ECX after the last, and returns when ECX is 0.
    fn rooms_code(&mut self, beginnings: &[usize], length: usize) -> Vec<u8> {
        let most = beginnings.iter().max().map_or(0, |last| last + 64);
        let mut code = self.bytes(most);
        for (turn, &start) in beginnings.iter().enumerate() {
            let mut room = self.room(length);
            match beginnings.get(turn + 1) {
                Some(&next) => {
                    if self.random.percent(30) {
                        let condition = 0x80 + self.random.below(16) as u8;
                        let target = self.random.pick(beginnings);
                        add_jump(&mut room, start, &[0x0F, condition], target);
                    }
                    add_jump(&mut room, start, &[0xE9], next);
                }
                None => {
                    add_jump(&mut room, start, &[0x49, 0x0F, 0x85], beginnings[0]);
                    room.push(0xC3);
                }
            }
            code[start..start + room.len()].copy_from_slice(&room);
        }
        code
    }

    /// A run through rooms, back to home or to another place outside the code.
    pub(super) fn rooms(&mut self) -> RunCase {
        let length = self.random.between(32, 300);
        let beginnings = self.beginnings();
        let code = self.rooms_code(&beginnings, length);
        let mut case = self.with_stack(code, length);
        case.machine.eip = CODE_BASE + beginnings[0] as u32;
        case.machine.regs[usize::from(ECX)] = self.random.between(1, MOST_ROUNDS) as u32;
        if self.random.percent(50) {
            let place = self.outside(case.code.len());
            let top = case.machine.regs[usize::from(ESP)];
            write(&mut case.data, top, Width::Dword, place).expect("the stack lies in the data");
        }
        case.budget = if self.random.percent(20) { self.random.below(200) as u64 } else { AMPLE };
        case
    }

    /// A run through rooms, stopped by its budget and resumed.
    pub(super) fn rooms_resumed(&mut self) -> Case {
        let mut case = self.rooms();
        case.budget = self.random.below(300) as u64;
        Case::Resume(case, AMPLE)
    }
}
