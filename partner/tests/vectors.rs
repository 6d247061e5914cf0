//! The vector file's shape.

use partner::vectors::{write_vectors, HEADER};

#[test]
fn lines_have_the_header_s_columns_and_cover_everything() {
    let mut out = Vec::new();
    let coverage = write_vectors(&mut out, None, 1, 4000).expect("writing to memory succeeds");
    assert_eq!(coverage.holes(), Vec::<String>::new());
    assert!(
        coverage.has_all_bits()
            && coverage.has_all_undefined()
            && coverage.has_all_parities()
            && coverage.has_all_accesses()
            && coverage.has_all_ends()
            && coverage.has_all_singles()
            && coverage.has_all_misses()
            && coverage.has_all_cases()
            && coverage.has_all_hex(),
        "{coverage}"
    );
    let text = String::from_utf8(out).expect("the lines are text");
    let columns = HEADER.split('\t').count();
    assert_eq!(text.lines().count(), 4001);
    for line in text.lines() {
        assert_eq!(line.split('\t').count(), columns);
        assert!(line.split('\t').all(|field| !field.is_empty()));
    }
    assert!(text.len() < 1_700_000);
}

#[test]
fn constants_stand_before_the_singles_of_a_run_s_line() {
    let mut out = Vec::new();
    let coverage = write_vectors(&mut out, None, 1999, 3000).expect("writing to memory succeeds");
    assert!(coverage.has_all_accesses() && coverage.has_all_ends() && coverage.has_all_cases(), "{coverage}");
    assert_eq!(coverage.holes(), Vec::<String>::new());
    assert!(HEADER.contains("\tarea_out\tconstants_len\tconstants\txmm0\t"));
    let text = String::from_utf8(out).expect("the lines are text");
    let lines: Vec<Vec<&str>> = text.lines().skip(1).map(|line| line.split('\t').collect()).collect();
    let (runs, others): (Vec<_>, Vec<_>) = lines.iter().partition(|fields| fields[0] == "run");
    assert!(others.iter().all(|fields| fields[31..33] == ["-", "-"]));
    for fields in &runs {
        let length = usize::from_str_radix(fields[31], 16).expect("the length is hex");
        assert!(length <= 65_540);
        // Zero bytes at the end are left out.
        assert!(fields[32] == "-" || fields[32].len() <= 2 * length.min(64) && !fields[32].ends_with("00"));
        assert_eq!(fields[16] == "F", length > 65_536 && !["A", "B"].contains(&fields[16]), "{fields:?}");
    }
    for length in ["0", "1", "FFFF", "10000", "10001"] {
        assert!(runs.iter().any(|fields| fields[31] == length), "{length}");
    }
}

#[test]
fn singles_stand_at_the_end_of_a_line() {
    let mut out = Vec::new();
    let coverage = write_vectors(&mut out, None, 1999, 3000).expect("writing to memory succeeds");
    assert!(coverage.has_all_singles() && coverage.has_all_misses(), "{coverage}");
    let names: Vec<&str> = HEADER.split('\t').collect();
    assert_eq!((names.len(), names[33], names[40], names[41], names[48]), (49, "xmm0", "xmm7", "xmm0_out", "xmm7_out"));
    let text = String::from_utf8(out).expect("the lines are text");
    let lines: Vec<Vec<&str>> = text.lines().skip(1).map(|line| line.split('\t').collect()).collect();
    let (runs, others): (Vec<_>, Vec<_>) = lines.iter().partition(|fields| fields[0] == "run");
    assert!(others.iter().all(|fields| fields[33..].iter().all(|field| *field == "-")));
    for fields in &runs {
        for field in &fields[33..] {
            let bits = u32::from_str_radix(field, 16).expect("the bits are hex");
            assert_eq!(*field, format!("{bits:X}"));
        }
        // Refused runs, and steps that stop at once, change no single.
        assert!(fields[17] != "0" || fields[33..41] == fields[41..49], "{fields:?}");
    }
    assert!(runs.iter().filter(|fields| fields[33..41] != fields[41..49]).count() > 200);
}

#[test]
fn hex_files_are_about_one_line_in_six_and_give_every_number() {
    let mut out = Vec::new();
    write_vectors(&mut out, None, 1999, 3000).expect("writing to memory succeeds");
    let text = String::from_utf8(out).expect("the lines are text");
    assert!(text.lines().all(|line| line.len() < 1000));
    let files: Vec<Vec<&str>> =
        text.lines().map(|line| line.split('\t').collect()).filter(|fields: &Vec<&str>| fields[0] == "hex").collect();
    assert!((430..=600).contains(&files.len()), "{}", files.len());
    for number in [0, 30, 31, 32, 33, 34, 35, 36, 37] {
        assert!(files.iter().any(|fields| fields[16] == format!("{number:X}")), "{number}");
    }
    for end in ["0D0A", "0A"] {
        let accepted = |fields: &&Vec<&str>| fields[16] == "0";
        assert!(files.iter().filter(accepted).any(|fields| fields[13].ends_with(end)));
    }
    for fields in files {
        let unused = (1..12).chain([17]).chain(19..30).chain(31..49);
        assert!(unused.into_iter().all(|field| fields[field] == "-"), "{fields:?}");
    }
}
