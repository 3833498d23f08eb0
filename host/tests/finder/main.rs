//! The program for people, run as a process on real files.

mod bad_texts;
mod depends;
mod documents;
mod example;
mod inputs;
mod outputs;
mod patterns;
mod process;
mod round_trips;
mod texts;
mod usage;
mod wrapper;
