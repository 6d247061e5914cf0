//! One case, and the shapes of a group that it counts.

use partner::cases::RunCase;
use partner::coverage::Coverage;
use partner::machine::{Machine, ALWAYS, CODE_BASE};

/// The shapes of a group that never came.
fn holes(coverage: &Coverage, title: &str) -> Vec<String> {
    let report = coverage.to_string();
    let line = report.lines().find(|line| line.contains(title)).expect("the group has a line");
    let (_, holes) = line.split_once(", holes: ").expect("one step doesn't fill a group");
    holes.split(", ").map(str::to_string).collect()
}

/// One step of the code with these registers, constants and data.
pub fn case(code: &[u8], registers: &[(usize, u32)], constants: usize, data: usize) -> RunCase {
    let mut regs = [0; 8];
    for &(number, value) in registers {
        regs[number] = value;
    }
    let machine = Machine { regs, eip: CODE_BASE, flags: ALWAYS, singles: [0; 8] };
    RunCase { machine, code: code.to_vec(), constants: vec![1; constants], data: vec![2; data], budget: 1 }
}

/// The case counts just these shapes of the group.
pub fn counts(title: &str, case: &RunCase, shapes: &[&str]) {
    let mut coverage = Coverage::new(std::iter::empty());
    let all = holes(&coverage, title);
    assert!(coverage.is_new_case(case));
    coverage.run(case, &mut case.data.clone());
    assert!(!coverage.is_new_case(case));
    let missing = holes(&coverage, title);
    let came: Vec<String> = all.into_iter().filter(|shape| !missing.contains(shape)).collect();
    assert_eq!(came, shapes, "{case:X?}");
    assert!(!coverage.has_all_accesses() && !coverage.has_all_ends() && !coverage.has_all_cases());
}
