//! Asks for Sangolid's archive, which the partner links, and links Unicorn and libx86emu if they are there.

use std::path::Path;
use std::process::{Command, Stdio};

/// libx86emu's state is reached by place: the header must have the places that this program uses.
const X86EMU_PLACES: &str = "
#include <stddef.h>
#include <x86emu.h>
_Static_assert(offsetof(x86emu_t, x86.gen) == 0, \"EAX\");
_Static_assert(offsetof(x86emu_t, x86.spc) == 16, \"ESP\");
_Static_assert(offsetof(x86emu_t, x86.seg) == 168, \"segments\");
_Static_assert(offsetof(x86emu_t, x86.msr) == 368, \"model registers\");
_Static_assert(offsetof(x86emu_t, max_instr) == 1896, \"limit\");
";

/// Whether this C text can be compiled and linked with the library.
fn links(library: &str, text: &str) -> bool {
    let folder = std::env::var_os("OUT_DIR").expect("a build script has a folder");
    let source = Path::new(&folder).join(library).with_extension("c");
    std::fs::write(&source, text).expect("the folder can be written");
    let mut command = Command::new("cc");
    command.arg("-shared").arg(&source).arg(format!("-l{library}")).arg("-o").arg(source.with_extension("so"));
    command.stderr(Stdio::null()).status().is_ok_and(|status| status.success())
}

/// Links the library, and says so in the configuration, if it is there.
fn link(library: &str, text: &str) {
    println!("cargo::rustc-check-cfg=cfg({library})");
    if links(library, text) {
        println!("cargo::rustc-cfg={library}");
        println!("cargo::rustc-link-lib={library}");
    }
}

fn main() {
    println!("cargo::rerun-if-env-changed=SANGOLID_LIB");
    println!("cargo::rerun-if-changed=build.rs");
    // Under an emulator a time means nothing.
    let linked = std::env::var_os("DEP_SANGOLID_LINKED").is_some();
    assert!(linked, "SANGOLID_LIB must name the folder that holds libsangolid.a for this machine's processor");
    // The archive may bring its own copy of the language's run-time parts.
    println!("cargo::rustc-link-arg=-Wl,--allow-multiple-definition");
    link("unicorn", "");
    link("x86emu", X86EMU_PLACES);
}
