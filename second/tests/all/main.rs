//! Tests through the public calls alone.

mod examples;
mod garbage;
mod help;
mod pools;
mod refusals;
mod scripts;
mod soundness;
mod sweeping;
mod torn;
