//! An emulator of the subset of documents 01 and 02, written from them and Intel's 1999 reference (003) alone.

pub mod arithmetic;
pub mod cases;
pub mod check;
pub mod compare;
pub mod coverage;
pub mod decode;
pub mod hex;
pub mod machine;
pub mod random;
pub mod remote;
pub mod run;
#[cfg(sangolid)]
pub mod sangolid;
pub mod singles;
pub mod step;
pub mod text;
pub mod vectors;
