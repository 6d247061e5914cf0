//! The coverage counts courses and shows holes.

use partner::coverage::Coverage;
use partner::machine::{Machine, ALWAYS, CODE_BASE, DATA_BASE};
use partner::run::run_observed;

/// The report of runs of the code with these budgets, each going on from the last one's end.
fn report(code: &[u8], budgets: &[u64]) -> String {
    let mut coverage = Coverage::new(std::iter::empty());
    let regs = [0, 3, 0, 0, 0, 0, DATA_BASE, DATA_BASE];
    let mut machine = Machine { regs, eip: CODE_BASE, flags: ALWAYS, singles: [0; 8] };
    for &budget in budgets {
        let outcome = run_observed(machine, code, &[], &mut [0; 8], budget, |seen| coverage.saw(&seen));
        coverage.ran(&outcome, code);
        coverage.resume();
        machine = outcome.machine;
    }
    coverage.to_string()
}

#[test]
fn resumed_repeats_are_counted() {
    let count = |budgets: &[u64], expected: u32| {
        let line = format!("\n{expected}\t\tresumed inside a repeated instruction\n");
        assert!(report(&[0xF3, 0xA4, 0x90], budgets).contains(&line));
    };
    count(&[2, 1], 1);
    count(&[1, 1, 1], 2);
    // The repeated instruction is finished, not begun, or not gone on with.
    count(&[3, 1], 0);
    count(&[0, 1], 0);
    count(&[2, 0], 0);
}

#[test]
fn jumps_taken_are_counted() {
    let count = |code: &[u8], budget: u64, expected: u32| {
        assert!(report(code, &[budget]).contains(&format!("\n{expected}\t\tblock with a jump taken\n")));
    };
    count(&[0xEB, 1, 0x90, 0x90], 2, 1);
    // Nothing finishes behind the jump, it isn't taken, or it goes to itself.
    count(&[0xEB, 1, 0x90, 0x90], 1, 0);
    count(&[0x74, 1, 0x90, 0x90], 2, 0);
    count(&[0xEB, 0xFE], 2, 0);
}

#[test]
fn shapes_never_finished_are_holes() {
    // XCHG AX,AX; MOV AL,[ESI]; LEA EAX,[ESI+ESI], which uses no memory; MOV AL,[ESI+ESI+1], which stops.
    let report = report(&[0x66, 0x90, 0x8A, 0x04, 0x26, 0x8D, 0x04, 0x36, 0x8A, 0x44, 0x36, 0x01], &[4]);
    for line in [
        "\n1 of 24 ModR/M shapes of memory, least 0, holes: mod 0 r/m 0, ",
        "\n1 of 256 SIB bytes with mod 0, least 0, holes: 00, ",
        "\n0 of 256 SIB bytes with mod 1, least 0, holes: 00, ",
        "\n2 of 8 prefix orders, least 0, holes: F3, F2, 66 F3, F3 66, 66 F2, F2 66\n",
    ] {
        assert!(report.contains(line), "no {line:?} in:\n{report}");
    }
}

#[test]
fn ways_of_going_round_are_counted() {
    let went = |code: &[u8], budget: u64, expected: &str| {
        let report = report(code, &[budget]);
        assert!(report.contains(expected), "no {expected:?} in:\n{report}");
    };
    let often = "\n1 of 3 ways of going round, least 0, holes: back after a place equal modulo 64, ";
    // 16 rounds of NOP and a jump back; 15 of them; one place that is never left.
    went(&[0x90, 0xEB, 0xFD], 31, often);
    went(&[0x90, 0xEB, 0xFD], 30, "\n0 of 3 ways of going round");
    went(&[0xEB, 0xFE], 100, "\n0 of 3 ways of going round");
    // A jump over so many bytes and one back.
    let far = |bytes: usize| {
        let mut code = vec![0x90; bytes];
        code[..5].copy_from_slice(&[[0xE9].as_slice(), &(bytes as u32 - 5).to_le_bytes()].concat());
        code.extend([[0xE9].as_slice(), &(-(bytes as i32) - 5).to_le_bytes()].concat());
        code
    };
    went(&far(64), 2, "\n0 of 3 ways of going round");
    let back = "\n1 of 3 ways of going round, least 0, holes: a place often, back after a place equal modulo 1024\n";
    went(&far(64), 3, back);
    went(&far(65), 3, "\n0 of 3 ways of going round");
    went(&far(2048), 3, "\n2 of 3 ways of going round, least 0, holes: a place often\n");
}

#[test]
fn places_outside_the_code_are_counted() {
    // The code is 2 bytes long and jumps to EDI.
    for (place, name) in [
        (0, "0"),
        (0xFFFF_FFFF, "FFFFFFFF"),
        (CODE_BASE - 1, "just below the code"),
        (0xFFFF_0000, "home"),
        (CODE_BASE + 2, "just past the code"),
        (CODE_BASE + 0x1_0001, "64 KiB past a place of the code"),
    ] {
        for (eip, title) in [(place, "starts outside the code"), (CODE_BASE, "ways out of the code")] {
            let mut coverage = Coverage::new(std::iter::empty());
            let machine = Machine { regs: [0, 0, 0, 0, 0, 0, 0, place], eip, flags: ALWAYS, singles: [0; 8] };
            let outcome = run_observed(machine, &[0xFF, 0xE7], &[], &mut [], 2, |seen| coverage.saw(&seen));
            coverage.ran(&outcome, &[0xFF, 0xE7]);
            let report = coverage.to_string();
            let line = report.lines().find(|line| line.contains(title)).expect("the group has a line");
            let (found, holes) = line.split_once(", holes: ").expect("the other places are holes");
            assert!(found.starts_with("1 of 6 ") && !holes.split(", ").any(|hole| hole == name), "{line}");
        }
    }
}

/// One step with these values in ECX and EDX counts this one shape of the group, whose line it looks for.
fn counts_one(code: &[u8], (ecx, edx): (u32, u32), title: &str, shape: &str) {
    let mut coverage = Coverage::new(std::iter::empty());
    let regs = [0, ecx, edx, 0, 0, 0, DATA_BASE, 0];
    let machine = Machine { regs, eip: CODE_BASE, flags: ALWAYS, singles: [0; 8] };
    let outcome = run_observed(machine, code, &[], &mut [0, 0, 0, 0, 0x80, 0, 0, 0], 1, |seen| coverage.saw(&seen));
    coverage.ran(&outcome, code);
    let report = coverage.to_string();
    let line = report.lines().find(|line| line.contains(title)).expect("the group has a line");
    let (found, holes) = line.split_once(", holes: ").expect("the other shapes are holes");
    assert!(found.starts_with("1 of ") && !holes.split(", ").any(|hole| hole == shape), "{code:02X?} {line}");
    assert!(!coverage.has_all_bits());
}

#[test]
fn bit_tests_are_counted() {
    // BT [ESI], ECX and BT [ESI], CX.
    let (long, word): (&[u8], &[u8]) = (&[0x0F, 0xA3, 0x0E], &[0x66, 0x0F, 0xA3, 0x0E]);
    for (code, offset, shape) in [
        (long, 31, "32 at finished"),
        (long, 32, "32 above finished"),
        (long, 64, "32 above stopped"),
        (long, 0xFFFF_FFFF, "32 below stopped"),
        (long, 0x8000_001F, "32 farthest below stopped"),
        (long, 0x7FFF_FFE0, "32 farthest above stopped"),
        (word, 0x0001_000F, "16 at finished"),
        (word, 16, "16 above finished"),
        (word, 0x7FEF, "16 above stopped"),
        (word, 0x7FF0, "16 farthest above stopped"),
        (word, 0x800F, "16 farthest below stopped"),
        (word, 0x8010, "16 below stopped"),
    ] {
        counts_one(code, (offset, 0), "units of a register's bit offset", shape);
    }
    counts_one(long, (39, 0), "bits tested", "BT memory set");
    counts_one(long, (38, 0), "bits tested", "BT memory clear");
    // BTS, BTR and BTC EDX, ECX; BTC [ESI], 7.
    for (opcode, name) in [(0xAB, "BTS"), (0xB3, "BTR"), (0xBB, "BTC")] {
        counts_one(&[0x0F, opcode, 0xCA], (33, 2), "bits tested", &format!("{name} register set"));
        counts_one(&[0x0F, opcode, 0xCA], (0, 2), "bits tested", &format!("{name} register clear"));
    }
    counts_one(&[0x0F, 0xBA, 0x7E, 4, 7], (0, 0), "bits tested", "BTC memory set");
}

#[test]
fn scans_are_counted() {
    // BSF and BSR EAX, EDX.
    for (opcode, name) in [(0xBC, "BSF"), (0xBD, "BSR")] {
        for (source, long, word) in [
            (0, "none", "none"),
            (1, "0", "0"),
            (0x8000, "between", "top"),
            (0x8000_0000, "top", "none"),
            (2, "between", "between"),
        ] {
            counts_one(&[0x0F, opcode, 0xC2], (0, source), "indexes of scans", &format!("{name} 32 {long}"));
            counts_one(&[0x66, 0x0F, opcode, 0xC2], (0, source), "indexes of scans", &format!("{name} 16 {word}"));
        }
    }
}

#[test]
fn double_shifts_are_counted() {
    for (opcode, name) in [(0xA4, "SHLD"), (0xAC, "SHRD")] {
        for (count, long, word) in [
            (0, "32 by 0", "16 by 0"),
            (64, "32 by 0", "16 by 0"),
            (33, "32 by 1", "16 by 1"),
            (15, "32 below", "16 below"),
            (16, "32 below", "16 at"),
            (31, "32 below", "16 over"),
        ] {
            // By an immediate in EDX, and by CL in [ESI].
            let title = "counts of double shifts";
            let ecx = u32::from(count) | 0x1100;
            counts_one(&[0x0F, opcode, 0xC2, count], (0, 0), title, &format!("{name} register {long}"));
            counts_one(&[0x66, 0x0F, opcode, 0xC2, count], (0, 0), title, &format!("{name} register {word}"));
            counts_one(&[0x0F, opcode + 1, 0x06], (ecx, 0), title, &format!("{name} memory {long}"));
            counts_one(&[0x66, 0x0F, opcode + 1, 0x06], (ecx, 0), title, &format!("{name} memory {word}"));
        }
    }
}

#[test]
fn conditional_moves_are_counted() {
    // From EDX, [ESI] and [EDI], with all flags clear.
    for (opcode, shape) in [(0x45, "NE met"), (0x44, "E not met"), (0x4F, "G met"), (0x42, "B not met")] {
        for (modrm, end) in [(0xC2, "finished"), (0x06, "finished"), (0x07, "stopped")] {
            counts_one(&[0x0F, opcode, modrm], (0, 0), "conditional moves", &format!("{shape} {end}"));
        }
    }
}
