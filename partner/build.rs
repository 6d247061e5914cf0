//! Links Sangolid's static library if the environment variable SANGOLID_LIB names it; one of another processor goes into
//! a program of its own, `remote/serve.c`.

use std::env::{var, var_os};
use std::path::{Path, PathBuf};
use std::process::Command;

/// The library to link: the file given, or the one archive in the folder given.
fn library(given: &Path) -> PathBuf {
    if given.is_file() {
        return given.to_path_buf();
    }
    let fixed = given.join("libsangolid.a");
    if fixed.is_file() {
        return fixed;
    }
    let listing = std::fs::read_dir(given).expect("SANGOLID_LIB is a folder or an archive");
    let mut found: Vec<PathBuf> = listing
        .filter_map(|entry| Some(entry.ok()?.path()))
        .filter(|path| {
            let name = path.file_name().and_then(|name| name.to_str()).unwrap_or("");
            name.starts_with("libsangolid") && name.ends_with(".a")
        })
        .collect();
    assert!(found.len() == 1, "SANGOLID_LIB must hold libsangolid.a or one archive libsangolid*.a");
    found.remove(0)
}

/// The processor of the archive's first object, by ELF's number for it.
fn processor(archive: &Path) -> &'static str {
    let bytes = std::fs::read(archive).expect("the archive can be read");
    let start = bytes.windows(4).position(|four| four == b"\x7FELF").expect("the archive holds an ELF object");
    match bytes[start + 18..start + 20] {
        [62, 0] => "x86_64",
        [183, 0] => "aarch64",
        [243, 0] => "riscv64",
        _ => panic!("the archive's processor is x86-64, 64-bit Arm or 64-bit RISC-V"),
    }
}

/// Links the archive.
fn link(archive: &Path) {
    let stem = archive.file_stem().and_then(|stem| stem.to_str()).expect("the archive has a plain name");
    let name = stem.strip_prefix("lib").expect("the archive's name begins with lib");
    let folder = archive.parent().expect("the archive lies in a folder");
    println!("cargo::rustc-link-search=native={}", folder.display());
    println!("cargo::rustc-link-lib=static={name}");
    println!("cargo::rustc-cfg=sangolid");
    println!("cargo::metadata=linked=yes");
    // The archive may bring its own copy of the language's run-time parts.
    println!("cargo::rustc-link-arg=-Wl,--allow-multiple-definition");
}

/// Compiles the program that makes the archive's calls, and names it and what runs it.
fn serve(archive: &Path, processor: &str) {
    let compiler = var("SANGOLID_CC").unwrap_or(format!("{processor}-linux-gnu-gcc"));
    let runner = var("SANGOLID_RUN").unwrap_or(format!("qemu-{processor}-static"));
    let program = Path::new(&var_os("OUT_DIR").expect("a build script has a folder")).join("serve");
    let mut command = Command::new(&compiler);
    command.args(["-O2", "-static", "-I", "../include", "remote/serve.c"]).arg(archive).arg("-o").arg(&program);
    let compiled = command.status().is_ok_and(|status| status.success());
    assert!(compiled, "the archive is for {processor}, and {compiler} must compile remote/serve.c for it");
    println!("cargo::rustc-env=SANGOLID_RUN={runner}");
    println!("cargo::rustc-env=SANGOLID_SERVE={}", program.display());
    println!("cargo::rustc-cfg=sangolid_remote");
}

fn main() {
    println!("cargo::rustc-check-cfg=cfg(sangolid, sangolid_remote)");
    for name in ["SANGOLID_LIB", "SANGOLID_CC", "SANGOLID_RUN"] {
        println!("cargo::rerun-if-env-changed={name}");
    }
    for path in ["build.rs", "remote/serve.c", "../include/sangolid.h"] {
        println!("cargo::rerun-if-changed={path}");
    }
    if let Some(given) = var_os("SANGOLID_LIB").filter(|given| !given.is_empty()) {
        let archive = library(Path::new(&given)).canonicalize().expect("the archive exists");
        println!("cargo::rerun-if-changed={}", archive.display());
        let processor = processor(&archive);
        if var("CARGO_CFG_TARGET_ARCH").is_ok_and(|own| own == processor) {
            link(&archive);
        } else {
            serve(&archive, processor);
        }
    }
    if var_os("CARGO_FEATURE_UNICORN").is_some() {
        println!("cargo::rustc-link-arg-bin=beside_unicorn=-lunicorn");
    }
}
