//! The Rust side by itself, compiled to one object to count its bytes.

extern crate self as model;

pub mod rust_side;
#[allow(dead_code)]
#[path = "../../tests/model/src/volume.rs"]
mod volume;
