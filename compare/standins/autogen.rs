//! STAND-IN: src/autogen.rs of 0.25.0 is not at hand; it only holds a client trait.
//! Empty on purpose (lib.rs says `mod autogen; pub use crate::autogen::*;`).
