//! A second MDF 3 file check, canonical copy, sample and difference list, and
//! the images to try them on.

// In unsafe functions too, unsafe calls stand in blocks.
#![deny(unsafe_op_in_unsafe_fn)]

pub mod calls;
pub mod canonical;
pub mod differences;
pub mod make;
pub mod mdf;
pub mod reading;
pub mod sample;
