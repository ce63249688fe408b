//! The calls of scard as C declares them, over `dist/c/scard.c`. The crate `scard` has safe types above them.
//! `include/scard.h` describes each call. The names, numbers and structs are made from it by tools/release/rust.
#![no_std]
#![allow(non_camel_case_types, clippy::too_many_arguments)]

mod calls;
pub use calls::*;
