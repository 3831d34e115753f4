//! The questions about an image in plain Rust, as fast as they could be written: what the proved
//! code is measured against, and the tables that it is measured on. Nothing but the tables uses
//! the independent program, which the tests compare with.

#![forbid(unsafe_code)]

pub mod ages;
pub mod along;
pub mod buffered;
pub mod frames;
pub mod lines;
pub mod listing;
pub mod pairs;
pub mod parts;
pub mod pen;
pub mod points;
pub mod reading;
pub mod tables;
pub mod text;
