//! The proved library, called through its C interface, beside the independent model.

pub mod benchmark;
pub mod differential;
pub mod footprint;
pub mod library;
