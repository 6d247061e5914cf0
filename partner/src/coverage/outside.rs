//! Groups of accesses around the ends of data, of constants and of all addresses.

use super::accesses::{accesses, come_to, Access, Use};
use super::bits::Grid;
use super::Group;
use crate::machine::{Width, CONSTANTS_BASE, DATA_BASE, MAX_BYTES};
use crate::run::Seen;

/// What a step does at an access.
const USES: [&str; 2] = ["read", "write"];
/// Areas with room for the access.
const AREAS: [&str; 3] = ["at few data:", "at few constants:", "at 65,536 constants:"];
/// Too many bytes for a vector line, if the last of them are written.
const LONG_AREAS: [&str; 1] = ["at 65,536 data:"];
/// Widths of accesses, and so many bytes of them.
const SPANS: [&str; 10] = [
    "8 bits 0",
    "8 bits 1",
    "16 bits 0",
    "16 bits 1",
    "16 bits 2",
    "32 bits 0",
    "32 bits 1",
    "32 bits 2",
    "32 bits 3",
    "32 bits 4",
];
/// The ends of an area that those bytes lie beyond.
const SIDES: [&str; 2] = ["below the first", "over the last"];

/// Areas without room for the access.
const SHORT_AREAS: [&str; 2] = ["at data:", "at constants:"];
/// Accesses to them: where the first byte would be, from their first byte, from a later one, from below and over all.
const SHORT: [&str; 7] = [
    "8 bits at none",
    "16 bits at none",
    "32 bits at none",
    "16 bits from the first of fewer",
    "32 bits from the first of fewer",
    "32 bits from a later one of fewer",
    "32 bits across all of fewer",
];

/// Widths of accesses, and how many bytes of them lie beyond the last address.
const TOPS: [&str; 7] = [
    "8 bits 0 over",
    "16 bits 0 over",
    "16 bits 1 over",
    "32 bits 0 over",
    "32 bits 1 over",
    "32 bits 2 over",
    "32 bits 3 over",
];

/// The groups, in the order in which they are shown; the last is for large cases only.
#[derive(Clone, Copy)]
enum Kind {
    Ends,
    Short,
    Tops,
    LongEnds,
}

/// The places in `USES` of what a step did at an access that it came to.
fn uses(access: &Access, seen: &Seen) -> &'static [usize] {
    match (access.usage(), access.number(seen)) {
        (Use::Reads, _) | (Use::Changes, 5) => &[0],
        (Use::Changes, _) => &[0, 1],
        (Use::Writes, _) => &[1],
    }
}

/// The places in `SPANS` and `SIDES` of an access at an area with room for it.
fn spans(access: &Access, base: u32, length: usize) -> Vec<[usize; 2]> {
    let first = match access.width {
        Width::Byte => 0,
        Width::Word => 2,
        Width::Dword => 5,
    };
    let (start, end) = access.distances(base, length);
    let beyond = [-start, end].into_iter().enumerate();
    let beyond = beyond.filter(|(_, count)| (0..=i64::from(access.width.bytes())).contains(count));
    beyond.map(|(side, count)| [first + count as usize, side]).collect()
}

/// The place in `SHORT` of an access at an area without room for it.
fn short(access: &Access, base: u32, length: usize) -> Option<usize> {
    let (start, end) = access.distances(base, length);
    match (access.width, length, start) {
        (Width::Byte, 0, 0) => Some(0),
        (Width::Word, 0, 0) => Some(1),
        (Width::Dword, 0, 0) => Some(2),
        (Width::Word, 1.., 0) => Some(3),
        (Width::Dword, 1.., 0) => Some(4),
        (_, 1.., 1..) if start < length as i64 => Some(5),
        (_, 1.., ..=-1) if end > 0 => Some(6),
        _ => None,
    }
}

/// The place in `TOPS` of an access up to or over the last address.
fn top(access: &Access) -> Option<usize> {
    let bytes = access.width.bytes();
    let over = (u64::from(access.address) + u64::from(bytes)).checked_sub(1 << 32)?;
    // The widths before have as many words as this one has bytes, less one.
    Some(bytes as usize - 1 + over as usize)
}

/// The groups of a use of an access beside an area, with the places on their axes.
fn area_places(usage: usize, access: &Access, area: usize, base: u32, length: usize) -> Vec<(Kind, Vec<usize>)> {
    if length < access.width.bytes() as usize {
        let short = short(access, base, length);
        return short.into_iter().map(|short| (Kind::Short, vec![usage, area, short])).collect();
    }
    let (kind, area) = match (area, length) {
        (0, MAX_BYTES) => (Kind::LongEnds, 0),
        (1, MAX_BYTES) => (Kind::Ends, 2),
        _ => (Kind::Ends, area),
    };
    let spans = spans(access, base, length).into_iter();
    spans.map(|[span, side]| (kind, vec![usage, area, span, side])).collect()
}

/// The groups of a use of an access, with the places on their axes.
fn use_places(usage: usize, access: &Access, seen: &Seen) -> Vec<(Kind, Vec<usize>)> {
    let top = top(access).map(|top| (Kind::Tops, vec![usage, top]));
    let data = area_places(usage, access, 0, DATA_BASE, seen.data);
    let constants = area_places(usage, access, 1, CONSTANTS_BASE, seen.constants);
    top.into_iter().chain(data).chain(constants).collect()
}

/// Counts of accesses around ends.
pub(super) struct Outside {
    grids: [Grid; 4],
}

impl Outside {
    /// Nothing counted yet.
    pub(super) fn new() -> Self {
        Outside {
            grids: [
                Grid::new("accesses at the ends of data and constants", &[&USES, &AREAS, &SPANS, &SIDES]),
                Grid::new("accesses at areas shorter than they are", &[&USES, &SHORT_AREAS, &SHORT]),
                Grid::new("accesses at the last address", &[&USES, &TOPS]),
                Grid::new("accesses at the ends of 65,536 data", &[&USES, &LONG_AREAS, &SPANS, &SIDES]),
            ],
        }
    }

    /// The groups and places of an instruction that a run came to.
    fn places(&self, seen: &Seen) -> Vec<(usize, usize)> {
        let accesses = accesses(seen);
        let met = come_to(&accesses, seen).iter();
        let uses = met.flat_map(|access| uses(access, seen).iter().map(move |&usage| (usage, access)));
        let places = uses.flat_map(|(usage, access)| use_places(usage, access, seen));
        places.map(|(kind, places)| (kind as usize, self.grids[kind as usize].place(&places))).collect()
    }

    /// Counts an instruction that a run came to.
    pub(super) fn saw(&mut self, seen: &Seen) {
        for (kind, place) in self.places(seen) {
            self.grids[kind].group.count(place);
        }
    }

    /// Whether the instruction has a shape that never came.
    pub(super) fn is_new(&self, seen: &Seen) -> bool {
        self.places(seen).into_iter().any(|(kind, place)| self.grids[kind].group.shapes[place].1 == 0)
    }

    /// Whether every shape came that a vector line has room for.
    pub(super) fn has_all_short(&self) -> bool {
        self.groups().take(Kind::LongEnds as usize).all(Group::is_full)
    }

    /// The groups of shapes.
    pub(super) fn groups(&self) -> impl Iterator<Item = &Group> {
        self.grids.iter().map(|grid| &grid.group)
    }
}
