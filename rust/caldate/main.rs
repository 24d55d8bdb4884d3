//! The proved program `caldate`, as rustc compiles it.
#![no_std]
#![no_main]

extern crate runtime as std;

include!(concat!(env!("OUT_DIR"), "/library.rs"));

std::main!(caldate::main);
