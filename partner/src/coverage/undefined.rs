//! Groups of flags that 003 leaves undefined, and of flags that a count of 0 keeps, each by how it stood before.

use std::collections::BTreeMap;

use super::{masked, Group};
use crate::decode::{Operand, Operation, Shift};
use crate::machine::{Machine, AF, CF, OF, PF, SF, STATUS, ZF};
use crate::run::Seen;
use crate::text::mnemonic;

/// Mnemonics, which of their counts or forms, and flags.
type Family = (&'static [&'static str], &'static str, u32);

const FLAGS: [(&str, u32); 6] = [("CF", CF), ("PF", PF), ("AF", AF), ("ZF", ZF), ("SF", SF), ("OF", OF)];
const STATES: [&str; 2] = ["clear", "set"];
const ROTATES: &[&str] = &["ROL", "ROR", "RCL", "RCR"];
const SHIFTS: &[&str] = &["SHL", "SHR", "SAR"];
const DOUBLE_SHIFTS: &[&str] = &["SHLD", "SHRD"];
/// What follows a mnemonic with count 0.
const BY_0: &str = " by 0";
/// Flags that a product leaves undefined.
const BESIDE_PRODUCTS: u32 = SF | ZF | AF | PF;

/// What 003 leaves undefined.
const LEFT: [Family; 17] = [
    (&["AND", "OR", "XOR", "TEST"], "", AF),
    (SHIFTS, " by 1", AF),
    (SHIFTS, " below the width", AF | OF),
    (&["SHL", "SHR"], " from the width on", AF | OF | CF),
    (&["SAR"], " from the width on", AF | OF),
    (ROTATES, " by more", OF),
    (ROTATES, " all the way round", OF),
    (&["MUL"], "", BESIDE_PRODUCTS),
    (&["IMUL"], " of one operand", BESIDE_PRODUCTS),
    (&["IMUL"], " of two operands", BESIDE_PRODUCTS),
    (&["IMUL"], " of three operands", BESIDE_PRODUCTS),
    (&["DIV", "IDIV"], "", STATUS),
    (&["BT", "BTS", "BTR", "BTC"], "", STATUS & !CF),
    (&["BSF", "BSR"], "", STATUS & !ZF),
    (DOUBLE_SHIFTS, " by 1", AF),
    (DOUBLE_SHIFTS, " up to the width", AF | OF),
    (DOUBLE_SHIFTS, " over the width", STATUS),
];

/// What a count of 0 keeps.
const KEPT: [Family; 3] = [(ROTATES, BY_0, STATUS), (SHIFTS, BY_0, STATUS), (DOUBLE_SHIFTS, BY_0, STATUS)];

/// The flags that a word holds, with their names.
fn flags_in(word: u32) -> impl Iterator<Item = (&'static str, u32)> {
    FLAGS.into_iter().filter(move |(_, flag)| word & flag != 0)
}

/// Which of a shift's or rotate's counts this masked one is.
fn shift_part(kind: Shift, count: u32, bits: u32) -> &'static str {
    let circle = match kind {
        Shift::Rol | Shift::Ror => Some(bits),
        Shift::Rcl | Shift::Rcr => Some(bits + 1),
        Shift::Shl | Shift::Shr | Shift::Sar => None,
    };
    match (count, circle) {
        (0, _) => BY_0,
        (1, _) => " by 1",
        (_, Some(circle)) if count % circle == 0 => " all the way round",
        (_, Some(_)) => " by more",
        (_, None) if count < bits => " below the width",
        (_, None) => " from the width on",
    }
}

/// Which of a double shift's counts this masked one is.
fn double_shift_part(count: u32, bits: u32) -> &'static str {
    match count {
        0 => BY_0,
        1 => " by 1",
        _ if count <= bits => " up to the width",
        _ => " over the width",
    }
}

/// Which of its mnemonic's counts or forms the instruction has.
fn part(seen: &Seen) -> &'static str {
    let bits = seen.instruction.width.bits();
    match seen.instruction.operation {
        Operation::ImulWide(_) => " of one operand",
        Operation::Imul(_, _, Operand::Immediate(_)) => " of three operands",
        Operation::Imul(..) => " of two operands",
        Operation::Shift(kind, _, count) => shift_part(kind, masked(count, seen.before), bits),
        Operation::DoubleShift(.., count) => double_shift_part(masked(count, seen.before), bits),
        _ => "",
    }
}

/// A group with two shapes for each flag of each operation.
struct Table {
    /// Each operation's first place and flags.
    rows: BTreeMap<String, (usize, u32)>,
    group: Group,
}

impl Table {
    /// Nothing counted yet.
    fn new(title: &str, families: &[Family]) -> Self {
        let (mut rows, mut shapes) = (BTreeMap::new(), Vec::new());
        for &(mnemonics, part, flags) in families {
            for mnemonic in mnemonics {
                let name = format!("{mnemonic}{part}");
                let first = shapes.len();
                for (flag, _) in flags_in(flags) {
                    shapes.extend(STATES.map(|state| format!("{name} {flag} {state}")));
                }
                rows.insert(name, (first, flags));
            }
        }
        Table { rows, group: Group::new(title.to_string(), shapes.into_iter()) }
    }

    /// The places of an operation's flags as they stood before.
    fn places(&self, name: &str, flags: u32, before: &Machine) -> Vec<usize> {
        let (first, listed) = self.rows[name];
        assert_eq!(flags, listed, "flags of {name}");
        let place = |(rank, (_, flag))| first + STATES.len() * rank + usize::from(before.flag(flag));
        flags_in(flags).enumerate().map(place).collect()
    }
}

/// Counts of the flags left undefined and of those kept.
pub(super) struct Undefined {
    tables: [Table; 2],
}

impl Undefined {
    /// Nothing counted yet.
    pub(super) fn new() -> Self {
        Undefined {
            tables: [Table::new("flags left undefined", &LEFT), Table::new("flags kept by a count of 0", &KEPT)],
        }
    }

    /// The table that a finished step counts in, and its places there.
    fn places(&self, seen: &Seen) -> Option<(usize, Vec<usize>)> {
        let undefined = seen.stepped.ok()?.flags.undefined;
        let part = part(seen);
        let (table, flags) = match (part, undefined) {
            (BY_0, _) => (1, STATUS),
            (_, 0) => return None,
            _ => (0, undefined),
        };
        let name = mnemonic(seen.instruction) + part;
        Some((table, self.tables[table].places(&name, flags, seen.before)))
    }

    /// Counts an instruction that a run came to.
    pub(super) fn saw(&mut self, seen: &Seen) {
        let Some((table, places)) = self.places(seen) else { return };
        places.into_iter().for_each(|place| self.tables[table].group.count(place));
    }

    /// Whether the instruction has a shape that never came.
    pub(super) fn is_new(&self, seen: &Seen) -> bool {
        self.places(seen).is_some_and(|(table, places)| {
            let shapes = &self.tables[table].group.shapes;
            places.into_iter().any(|place| shapes[place].1 == 0)
        })
    }

    /// The groups of shapes.
    pub(super) fn groups(&self) -> impl Iterator<Item = &Group> {
        self.tables.iter().map(|table| &table.group)
    }
}
