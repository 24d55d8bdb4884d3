//! The tests of the proved source. They were written for the kit, whose `std` this crate stands for.
#![cfg(test)]
#![no_std]
#![allow(const_item_mutation)]

extern crate self as std;

pub use runtime::*;

#[macro_use]
pub mod kit;

pub use kit::{alloc, process, test};

include!(concat!(env!("OUT_DIR"), "/library.rs"));
