//! Groups of accesses in data and constants and beside them, of numbers of constants, and of refusals that apply
//! together.

use super::accesses::{accesses, come_to, Access, Kind, Use, KINDS};
use super::bits::Grid;
use super::Group;
use crate::cases::RunCase;
use crate::machine::{CONSTANTS_BASE, DATA_BASE, MAX_BYTES};
use crate::run::{refusals, Seen, REFUSALS};

/// Which area holds an access.
#[derive(Clone, Copy, PartialEq, Eq)]
pub(super) enum Holder {
    Data,
    Constants,
    Neither,
}

/// Places of accesses, and which area holds them.
const PLACES: [(&str, Holder); 15] = [
    ("in data", Holder::Data),
    ("from data over its end", Holder::Neither),
    ("from below data into it", Holder::Neither),
    ("amid constants", Holder::Constants),
    ("from the first constant", Holder::Constants),
    ("up to the last constant", Holder::Constants),
    ("one byte over the last constant", Holder::Neither),
    ("one byte below the first constant", Holder::Neither),
    ("where constants would be", Holder::Neither),
    ("past the constants at an offset that data have", Holder::Neither),
    ("past the data at an offset that constants have", Holder::Neither),
    ("64 KiB past a constant", Holder::Neither),
    ("up to 2^32", Holder::Neither),
    ("across 2^32", Holder::Neither),
    ("elsewhere", Holder::Neither),
];

/// Steps with two accesses.
const PAIRS: [&str; 4] = ["PUSH of memory", "CALL through memory", "MOVS", "CMPS"];
/// In the order of `Holder`.
const FIRST: [&str; 3] = ["from data", "from constants", "from neither"];
/// In the order of `Holder`.
const SECOND: [&str; 3] = ["to data", "to constants", "to neither"];

/// Numbers of constants.
const LENGTHS: [&str; 8] = ["none", "1", "2 or 3", "4 to 65,534", "65,535", "65,536", "65,537", "more"];

impl Access {
    /// The area that holds it.
    pub(super) fn holder(&self, seen: &Seen) -> Holder {
        if self.is_in(DATA_BASE, seen.data) {
            Holder::Data
        } else if self.is_in(CONSTANTS_BASE, seen.constants) {
            Holder::Constants
        } else {
            Holder::Neither
        }
    }

    /// Its places in `PLACES`.
    fn places(&self, seen: &Seen) -> Vec<usize> {
        let holder = self.holder(seen);
        let (held, lost) = (holder == Holder::Constants, holder == Holder::Neither);
        let some = seen.constants > 0;
        let (start, end) = self.distances(CONSTANTS_BASE, seen.constants);
        let (data_start, _) = self.distances(DATA_BASE, seen.data);
        let past = u64::from(self.address) + u64::from(self.width.bytes());
        let lies = [
            holder == Holder::Data,
            lost && (0..seen.data as i64).contains(&data_start),
            seen.data > 0 && (1 - i64::from(self.width.bytes())..0).contains(&data_start),
            held && start > 0 && end < 0,
            held && start == 0,
            held && end == 0,
            some && start >= 0 && end == 1,
            some && start == -1,
            !some && self.is_in(CONSTANTS_BASE, MAX_BYTES),
            some && lost && self.is_in(CONSTANTS_BASE, seen.data),
            lost && self.is_in(DATA_BASE, seen.constants),
            self.is_in(CONSTANTS_BASE + MAX_BYTES as u32, seen.constants),
            past == 1 << 32,
            past > 1 << 32,
        ];
        let elsewhere = !lies.contains(&true);
        lies.into_iter().chain([elsewhere]).enumerate().filter(|(_, lies)| *lies).map(|(place, _)| place).collect()
    }
}

/// The number with which a step stops at such an access, 0 if it is allowed.
fn expected(usage: Use, holder: Holder) -> u32 {
    match (usage, holder) {
        (_, Holder::Data) | (Use::Reads, Holder::Constants) => 0,
        (Use::Changes, Holder::Constants) | (Use::Writes, _) => 6,
        (Use::Reads | Use::Changes, Holder::Neither) => 5,
    }
}

/// Whether a finished step reads constants.
pub(super) fn reads_constants(seen: &Seen) -> bool {
    accesses(seen).iter().any(|access| access.holder(seen) == Holder::Constants)
}

/// The places of an access that the step came to, which must end as its kind and its holder say.
fn access_places(access: &Access, seen: &Seen) -> Vec<usize> {
    let (kind, usage) = KINDS[access.kind as usize];
    let places = access.places(seen);
    for &place in &places {
        let (name, holder) = PLACES[place];
        assert_eq!(access.number(seen), expected(usage, holder), "{kind} {name}");
    }
    places.into_iter().map(|place| access.kind as usize * PLACES.len() + place).collect()
}

/// The places of a step with two accesses on the axes of pairs.
fn pair_places(accesses: &[Access], seen: &Seen) -> Option<[usize; 3]> {
    let [first, second] = accesses else { return None };
    let pair = match second.kind {
        Kind::Push => 0,
        Kind::Call => 1,
        Kind::MovsTo => 2,
        _ => 3,
    };
    Some([pair, first.holder(seen) as usize, second.holder(seen) as usize])
}

/// The place of a number of constants.
fn length_place(constants: usize) -> usize {
    match constants {
        0 | 1 => constants,
        2 | 3 => 2,
        4..=65_534 => 3,
        65_535..=65_537 => constants - 65_531,
        _ => 7,
    }
}

/// The place of refusals that apply together among all choices of them but none.
fn refusals_place(applying: &[u32]) -> Option<usize> {
    let choice: usize =
        REFUSALS.iter().enumerate().filter(|(_, number)| applying.contains(number)).map(|(rank, _)| 1 << rank).sum();
    choice.checked_sub(1)
}

/// All choices of refusals but none, as text.
fn refusals_names() -> impl Iterator<Item = String> {
    (1..1 << REFUSALS.len()).map(|choice: usize| {
        let chosen = REFUSALS.iter().enumerate().filter(|(rank, _)| choice >> rank & 1 == 1);
        chosen.map(|(_, number)| number.to_string()).collect::<Vec<String>>().join(" ")
    })
}

/// Counts of accesses and cases.
pub(super) struct Constants {
    kinds: Group,
    pairs: Grid,
    lengths: Group,
    refusals: Group,
}

impl Constants {
    /// Nothing counted yet.
    pub(super) fn new() -> Self {
        let kinds = KINDS.iter().flat_map(|(kind, usage)| {
            PLACES.iter().map(move |(place, holder)| match expected(*usage, *holder) {
                0 => format!("{kind} {place}"),
                number => format!("{kind} {place} gives {number}"),
            })
        });
        Constants {
            kinds: Group::new("accesses in data and constants and beside them".to_string(), kinds),
            pairs: Grid::new("pairs of accesses", &[&PAIRS, &FIRST, &SECOND]),
            lengths: Group::new("numbers of constants".to_string(), LENGTHS.iter().map(ToString::to_string)),
            refusals: Group::new("refusals that apply together".to_string(), refusals_names()),
        }
    }

    /// The places of an instruction that a run came to, in each group of accesses.
    fn places(&self, seen: &Seen) -> [Vec<usize>; 2] {
        let accesses = accesses(seen);
        [
            come_to(&accesses, seen).iter().flat_map(|access| access_places(access, seen)).collect(),
            pair_places(&accesses, seen).iter().map(|places| self.pairs.place(places)).collect(),
        ]
    }

    /// The places of a case, in each group of cases.
    fn case_places(case: &RunCase) -> [Option<usize>; 2] {
        let RunCase { machine, code, constants, data, budget } = case;
        let refusals = refusals(machine, code, constants, data, *budget);
        [Some(length_place(constants.len())), refusals_place(&refusals)]
    }

    /// Counts an instruction that a run came to.
    pub(super) fn saw(&mut self, seen: &Seen) {
        let places = self.places(seen);
        for (group, places) in [&mut self.kinds, &mut self.pairs.group].into_iter().zip(places) {
            places.into_iter().for_each(|place| group.count(place));
        }
    }

    /// Counts a case.
    pub(super) fn took(&mut self, case: &RunCase) {
        for (group, place) in [&mut self.lengths, &mut self.refusals].into_iter().zip(Self::case_places(case)) {
            place.into_iter().for_each(|place| group.count(place));
        }
    }

    /// Whether the instruction has a shape that never came.
    pub(super) fn is_new(&self, seen: &Seen) -> bool {
        let mut places = self.accesses().zip(self.places(seen));
        places.any(|(group, places)| places.into_iter().any(|place| group.shapes[place].1 == 0))
    }

    /// Whether the case has a shape that never came.
    pub(super) fn is_new_case(&self, case: &RunCase) -> bool {
        let mut places = self.cases().zip(Self::case_places(case));
        places.any(|(group, place)| place.is_some_and(|place| group.shapes[place].1 == 0))
    }

    /// The groups of accesses.
    pub(super) fn accesses(&self) -> impl Iterator<Item = &Group> {
        [&self.kinds, &self.pairs.group].into_iter()
    }

    /// The groups of cases.
    pub(super) fn cases(&self) -> impl Iterator<Item = &Group> {
        [&self.lengths, &self.refusals].into_iter()
    }
}
