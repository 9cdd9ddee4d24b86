//! Comparisons of the proved functions, called from Rust through `bindings/`, with the second implementation.

pub mod damage;
pub mod translate;
pub mod walk;
