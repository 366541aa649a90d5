//! All tests that go through the public operations. What is expected stands in
//! the paper or follows from it by hand; nothing is taken from a run.
#![forbid(unsafe_code)]

mod bill;
mod bound;
mod cases;
mod closing;
mod costs;
mod examples;
mod further;
mod large;
mod model;
mod next;
mod printing;
mod properties;
mod rack;
mod searching;
mod table;
mod tools;
mod worked;
mod writing;
