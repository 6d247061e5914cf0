//! A program that gives another byte of a refused access than the first one outside is found out.

mod carry_out;
mod common;

use carry_out::program;
use partner::cases::{Case, Generator, Size};
use partner::compare::{compare, Comparison, Other};
use partner::decode::{Operand, Operation, Text};
use partner::machine::{Refused, Width, CONSTANTS_BASE, DATA_BASE, MAX_BYTES};
use partner::step::{execute, Stop};

/// A refused access and where it was refused.
struct Asked {
    operation: Operation,
    writes: bool,
    access: Refused,
    constants: u32,
    data: u32,
}

impl Asked {
    /// Address behind the data.
    fn data_end(&self) -> u32 {
        DATA_BASE + self.data
    }

    /// Address behind the constants.
    fn constants_end(&self) -> u32 {
        CONSTANTS_BASE + self.constants
    }

    /// Address behind the access, modulo 2^32.
    fn end(&self) -> u32 {
        self.access.address.wrapping_add(self.access.width.bytes())
    }

    /// Whether an area's end is given.
    fn gives_an_end(&self) -> bool {
        self.access.outside != self.access.address
    }

    /// Whether it starts in data.
    fn starts_in_data(&self) -> bool {
        (DATA_BASE..self.data_end()).contains(&self.access.address)
    }

    /// Whether it starts in constants.
    fn starts_in_constants(&self) -> bool {
        (CONSTANTS_BASE..self.constants_end()).contains(&self.access.address)
    }

    /// Whether it starts below the base and reaches over it.
    fn reaches(&self, base: u32) -> bool {
        (base - self.access.width.bytes() + 1..base).contains(&self.access.address)
    }
}

/// Disagreements, so counted, with a program that gives these bytes for refused accesses.
fn disagreements(give: impl Fn(&Asked) -> u32 + 'static, count: fn(&dyn Other) -> u64) -> u64 {
    count(&program(&move |machine, instruction, constants, data| {
        let stepped = execute(machine, instruction, constants, data);
        let (operation, constants, data) = (instruction.operation, constants.len() as u32, data.len() as u32);
        let given = |writes, access| {
            let outside = give(&Asked { operation, writes, access, constants, data });
            Refused { outside, ..access }
        };
        match stepped {
            Err(Stop::Read(access)) => Err(Stop::Read(given(false, access))),
            Err(Stop::Write(access)) => Err(Stop::Write(given(true, access))),
            stepped => stepped,
        }
    }))
}

/// In 5,000 cases.
fn in_cases(other: &dyn Other) -> u64 {
    compare(other, 3, 5_000, 0).defined
}

/// In 5,000 runs around ends.
fn in_runs_at_ends(other: &dyn Other) -> u64 {
    let mut generator = Generator::new(3, Size::Large);
    let mut comparison = Comparison::new(other, std::iter::empty(), 0);
    for _ in 0..5_000 {
        comparison.case(&Case::Run(generator.at_ends()));
    }
    comparison.defined
}

/// The slip is found at least five times.
fn is_found(slip: impl Fn(&Asked) -> u32 + 'static) {
    let found = disagreements(slip, in_cases);
    assert!(found >= 5, "{found}");
}

/// The slip is found at least five times in runs around ends.
fn is_found_at_ends(slip: impl Fn(&Asked) -> u32 + 'static) {
    let found = disagreements(slip, in_runs_at_ends);
    assert!(found >= 5, "{found}");
}

/// The byte given, or another one if the slip applies.
fn given_or(asked: &Asked, applies: bool, other: u32) -> u32 {
    if applies {
        other
    } else {
        asked.access.outside
    }
}

#[test]
fn no_slip_agrees() {
    for count in [in_cases, in_runs_at_ends] {
        assert_eq!(disagreements(|asked| asked.access.outside, count), 0);
    }
}

#[test]
fn the_access_s_own_address_is_found() {
    is_found(|asked| asked.access.address);
    // For reads or writes only, and for reads that start in one area, as if the other were meant.
    is_found(|asked| given_or(asked, !asked.writes, asked.access.address));
    is_found(|asked| given_or(asked, asked.writes, asked.access.address));
    is_found(|asked| given_or(asked, !asked.writes && asked.starts_in_data(), asked.access.address));
    is_found(|asked| given_or(asked, !asked.writes && asked.starts_in_constants(), asked.access.address));
    // For one width only.
    is_found(|asked| given_or(asked, asked.access.width == Width::Word, asked.access.address));
    is_found(|asked| given_or(asked, asked.access.width == Width::Dword, asked.access.address));
}

#[test]
fn the_access_s_own_address_for_one_kind_is_found() {
    let kinds: [fn(&Asked) -> bool; 17] = [
        |asked| matches!(asked.operation, Operation::Pop(_)),
        |asked| matches!(asked.operation, Operation::Ret(_)),
        |asked| matches!(asked.operation, Operation::Leave),
        |asked| matches!(asked.operation, Operation::Push(_)),
        |asked| matches!(asked.operation, Operation::Call(_)) && !asked.writes,
        |asked| matches!(asked.operation, Operation::Call(_)) && asked.writes,
        |asked| matches!(asked.operation, Operation::Jmp(_)),
        |asked| matches!(asked.operation, Operation::BitTest(_, _, Operand::Register(_))),
        |asked| matches!(asked.operation, Operation::Cmov(..)),
        |asked| matches!(asked.operation, Operation::Mov(..)) && asked.writes,
        |asked| matches!(asked.operation, Operation::Alu(..)),
        |asked| matches!(asked.operation, Operation::Text(Text::Movs)) && !asked.writes,
        |asked| matches!(asked.operation, Operation::Text(Text::Movs)) && asked.writes,
        |asked| matches!(asked.operation, Operation::Text(Text::Cmps)),
        |asked| matches!(asked.operation, Operation::Text(Text::Stos)),
        |asked| matches!(asked.operation, Operation::Text(Text::Lods)),
        |asked| matches!(asked.operation, Operation::Text(Text::Scas)),
    ];
    for kind in kinds {
        is_found_at_ends(move |asked| given_or(asked, kind(asked), asked.access.address));
    }
}

#[test]
fn the_last_byte_of_the_access_is_found() {
    is_found(|asked| asked.access.address.wrapping_add(asked.access.width.bytes() - 1));
}

#[test]
fn the_last_byte_inside_is_found() {
    is_found(|asked| given_or(asked, asked.gives_an_end(), asked.access.outside.wrapping_sub(1)));
}

#[test]
fn the_byte_after_the_first_outside_is_found() {
    is_found(|asked| given_or(asked, asked.gives_an_end(), asked.access.outside.wrapping_add(1)));
}

#[test]
fn an_area_s_end_for_an_access_from_below_is_found() {
    is_found(|asked| given_or(asked, !asked.writes && asked.reaches(DATA_BASE), asked.data_end()));
    is_found(|asked| given_or(asked, !asked.writes && asked.reaches(CONSTANTS_BASE), asked.constants_end()));
    is_found(|asked| given_or(asked, asked.writes && asked.reaches(DATA_BASE), asked.data_end()));
    // Only if it reaches over all of the area.
    is_found_at_ends(|asked| {
        let over = asked.reaches(DATA_BASE) && asked.end() > asked.data_end();
        given_or(asked, over, asked.data_end())
    });
    is_found_at_ends(|asked| {
        let over = asked.reaches(CONSTANTS_BASE) && asked.end() > asked.constants_end();
        given_or(asked, over && !asked.writes, asked.constants_end())
    });
}

#[test]
fn the_first_byte_inside_for_an_access_from_below_is_found() {
    is_found(|asked| given_or(asked, asked.reaches(DATA_BASE), DATA_BASE));
    is_found(|asked| given_or(asked, !asked.writes && asked.reaches(CONSTANTS_BASE), CONSTANTS_BASE));
}

#[test]
fn the_other_area_s_end_for_a_read_is_found() {
    is_found(|asked| given_or(asked, !asked.writes && asked.starts_in_constants(), asked.data_end()));
    is_found(|asked| given_or(asked, !asked.writes && asked.starts_in_data(), asked.constants_end()));
    // As far from its base as the other area's end from that one's.
    is_found(|asked| given_or(asked, !asked.writes && asked.starts_in_constants(), CONSTANTS_BASE + asked.data));
    is_found(|asked| given_or(asked, asked.starts_in_data(), DATA_BASE + asked.constants));
}

#[test]
fn an_area_s_end_for_a_write_from_constants_is_found() {
    is_found(|asked| given_or(asked, asked.writes && asked.starts_in_constants(), asked.constants_end()));
    is_found(|asked| given_or(asked, asked.writes && asked.starts_in_constants(), asked.data_end()));
    // Only if it lies wholly in them, and only if it doesn't.
    is_found(|asked| {
        let whole = asked.starts_in_constants() && asked.end() <= asked.constants_end();
        given_or(asked, whole && asked.writes, asked.constants_end())
    });
    is_found(|asked| {
        let over = asked.starts_in_constants() && asked.end() > asked.constants_end();
        given_or(asked, over && asked.writes, asked.constants_end())
    });
}

#[test]
fn another_byte_for_an_access_that_starts_nowhere_is_found() {
    let others: [fn(&Asked) -> u32; 3] = [Asked::data_end, Asked::constants_end, |_| 0];
    for other in others {
        is_found(move |asked| given_or(asked, !asked.starts_in_data() && !asked.starts_in_constants(), other(asked)));
    }
}

#[test]
fn bytes_that_wrap_are_found() {
    // The last address of all, and 0 as if it came after that.
    for other in [u32::MAX, 0] {
        is_found(move |asked| given_or(asked, asked.end() < asked.access.address, other));
    }
}

#[test]
fn lengths_of_16_bits_are_found() {
    is_found_at_ends(|asked| given_or(asked, asked.starts_in_data() && asked.data == MAX_BYTES as u32, DATA_BASE));
    is_found_at_ends(|asked| {
        let full = asked.constants == MAX_BYTES as u32;
        given_or(asked, !asked.writes && asked.starts_in_constants() && full, CONSTANTS_BASE)
    });
}
