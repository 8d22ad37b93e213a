//! The proved calls (`library`) and the same calls written by hand (`linear`), with days to
//! measure both on.

pub mod calls;
pub mod days;
pub mod library;
pub mod linear;
