//! The series catalogue, written a second time. One memory holds linked vertices
//! and edges; the workers of a table change it step by step. There are a sweep,
//! a listing, and scripts that play a whole schedule.
//!
//! This program exists to be compared with another one, so it favours being
//! easy to read over being fast.

pub mod catalogue;
pub mod listing;
pub mod numbers;
pub mod script;
pub mod step;
pub mod sweep;
pub mod worker;

mod edge_look;
mod trial;
mod vertex_look;

pub use catalogue::{fresh, Catalogue};
pub use listing::listing;
pub use numbers::{Answer, Refusal};
pub use script::run;
pub use step::{step, take_up};
pub use sweep::sweep;
pub use worker::{Place, Record, Table};
