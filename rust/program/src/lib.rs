//! The printing program, run as a process, next to the independent program: what each prints of the
//! same bytes, whichever way they come. Nothing here is linked with the proved code, so it runs on
//! any machine that can start the program.

#![forbid(unsafe_code)]

pub mod compare;
pub mod damage;
pub mod faulty;
pub mod images;
pub mod input;
pub mod limits;
pub mod process;
