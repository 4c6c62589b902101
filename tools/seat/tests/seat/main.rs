//! Tests of the program on real files. With the feature `stops` also those in which
//! it is killed between the steps of a write.

mod common;
mod damaged;
mod drawings;
mod exercises;
mod full;
mod manners;
mod meetings;
mod names;
mod pages;
mod posted;
#[cfg(feature = "stops")]
mod stopped;
mod writers;
