//! Blinks a lamp of an EX32: a small driver over a printed crate text.

#![no_std]

#[allow(non_camel_case_types, non_snake_case, unused_imports, clippy::all)]
#[rustfmt::skip]
pub mod device;
#[path = "../../../support/generic.rs"]
pub mod generic;

pub use blinky::Blinky;

mod blinky;
