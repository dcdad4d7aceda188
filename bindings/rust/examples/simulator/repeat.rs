//! The far side, and replies as texts: the sources that a program that repeats a seed includes.

include!("far.rs");
include!("told.rs");

/// The sources of both.
pub const SOURCE: [&str; 2] = [include_str!("far.rs"), include_str!("told.rs")];
