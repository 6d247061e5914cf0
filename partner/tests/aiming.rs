//! Memory operands are aimed at the data.

use partner::cases::{part, Generator, Size};
use partner::coverage::Coverage;
use partner::random::Random;
use partner::run::run_observed;

#[test]
fn a_part_taken_so_many_times_gives_the_whole() {
    let mut random = Random::new(1);
    let edges = [0, 1, 2, 0x7FFF_FFFF, 0x8000_0000, 0xFFFF_FFFE, 0xFFFF_FFFF];
    for whole in edges.into_iter().chain((0..1000).map(|_| random.word())) {
        for times in [1, 3, 5, 9] {
            assert_eq!(part(whole, times).wrapping_mul(times), whole);
        }
        assert_eq!(part(whole, 2).wrapping_mul(2), whole.wrapping_add(whole & 1));
    }
}

#[test]
fn every_shape_of_memory_operand_finishes() {
    let mut generator = Generator::new(1, Size::Large);
    let mut coverage = Coverage::new(std::iter::empty());
    for _ in 0..600_000 {
        let mut case = generator.alone(64);
        run_observed(case.machine, &case.code, &case.constants, &mut case.data, 1, |seen| coverage.saw(&seen));
    }
    let report = coverage.to_string();
    for group in [
        "24 of 24 ModR/M shapes of memory",
        "256 of 256 SIB bytes with mod 0",
        "256 of 256 SIB bytes with mod 1",
        "256 of 256 SIB bytes with mod 2",
        "8 of 8 prefix orders",
    ] {
        assert!(report.contains(group), "no \"{group}\" in:\n{report}");
    }
}
