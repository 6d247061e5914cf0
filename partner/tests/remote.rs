//! Calls to `remote/serve.c` bring all areas there and back.

use std::path::Path;
use std::process::Command;

use partner::compare::Other;
use partner::remote::Remote;

/// Functions in Sangolid's place, which put what they were given into what they give back.
const ECHO: &str = "
#include \"sangolid.h\"
uint32_t sangolid_run(uint32_t *state, size_t state_len, const uint8_t *code, size_t code_len, const uint8_t *constants,
                      size_t constants_len, uint8_t *area, size_t area_len, uint64_t budget) {
    for (size_t i = 0; i < state_len; i++) state[i] += 1;
    for (size_t i = 0; i < area_len; i++) area[i] ^= code[i % code_len] ^ constants[i % constants_len];
    return (uint32_t)(budget >> 32) + (uint32_t)budget + (uint32_t)code_len;
}
uint32_t sangolid_check(const uint8_t *code, size_t code_len, uint8_t *marks, size_t marks_len, uint32_t *answer,
                        size_t answer_len) {
    for (size_t i = 0; i < marks_len; i++) marks[i] += code[code_len - 1];
    for (size_t i = 0; i < answer_len; i++) answer[i] = (uint32_t)(code_len + marks_len);
    return 0xFFFFFFFE;
}
uint32_t sangolid_hex(const uint8_t *text, size_t text_len, uint8_t *code, size_t code_len, uint32_t *answer,
                      size_t answer_len) {
    for (size_t i = 0; i < code_len; i++) code[i] -= text[text_len - 1];
    for (size_t i = 0; i < answer_len; i++) answer[i] += (uint32_t)(text_len - code_len);
    return 0xFFFFFFFD;
}
";

/// The program with those functions, compiled for this machine.
fn echo() -> Remote {
    let folder = Path::new(env!("CARGO_TARGET_TMPDIR"));
    let (source, program) = (folder.join("echo.c"), folder.join("echo"));
    std::fs::write(&source, ECHO).expect("the folder can be written");
    let mut command = Command::new("cc");
    command.args(["-I", "../include", "remote/serve.c"]).arg(&source).arg("-o").arg(&program);
    assert!(command.status().expect("there is a C compiler").success());
    Remote::start(&[program.to_str().expect("the folder has a plain name")]).expect("the program starts")
}

#[test]
fn areas_go_there_and_back() {
    let echo = echo();
    let mut state: Vec<u32> = (0..20).map(|i| 0xFFFF_FFFC_u32.wrapping_add(i / 4)).collect();
    let mut area: Vec<u8> = (0..100_000).map(|i| (i / 7) as u8).collect();
    let code: Vec<u8> = (0..65_537).map(|i| (i / 3) as u8).collect();
    let constants: Vec<u8> = (0..65_540).map(|i| (i / 5) as u8).collect();
    let number = echo.run(&mut state, &code, &constants, &mut area, (3 << 32) + 4);
    assert_eq!(number, 3 + 4 + 65_537);
    assert_eq!(state, (0..20).map(|i| 0xFFFF_FFFD_u32.wrapping_add(i / 4)).collect::<Vec<_>>());
    let mixed = |i| (i / 7) as u8 ^ ((i % 65_537) / 3) as u8 ^ ((i % 65_540) / 5) as u8;
    let expected: Vec<u8> = (0..100_000).map(mixed).collect();
    assert!(area == expected);

    let (mut marks, mut answer) = (vec![1, 2, 255], [0]);
    assert_eq!(echo.check(&[5, 6], &mut marks, &mut answer), 0xFFFF_FFFE);
    assert_eq!((marks, answer), (vec![7, 8, 5], [5]));

    let (mut code, mut answer) = (vec![7, 8], [1, 2]);
    assert_eq!(echo.hex(b"123456\x08", &mut code, &mut answer), 0xFFFF_FFFD);
    assert_eq!((code, answer), (vec![255, 0], [6, 7]));

    assert_eq!(echo.run(&mut [], &[], &[], &mut [], 9), 9);
    assert_eq!(echo.check(&[], &mut [], &mut []), 0xFFFF_FFFE);
    assert_eq!(echo.hex(&[], &mut [], &mut []), 0xFFFF_FFFD);
}

#[test]
fn a_missing_program_is_told() {
    assert!(Remote::start(&["/nowhere/serve"]).is_err());
}
