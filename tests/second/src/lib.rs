//! A second planner for bank queue sheets, written from document 01 to be read
//! beside it: its words are the names here, and each module says which of its
//! sections it follows, and which request of document 02. Loads are kept; all
//! else is found by looking.
//!
//! [`corners`], [`draft`], [`exports`], [`gen`] and [`rng`] are no part of the
//! planner: they make sheets, files and calls for tests.

pub mod corners;
pub mod draft;
pub mod exports;
pub mod file;
pub mod gen;
pub mod listing;
pub mod moves;
pub mod plan;
pub mod read;
pub mod rng;
pub mod run;
pub mod settle;
pub mod sheet;
pub mod trial;
pub mod worklist;
pub mod write;

pub use draft::{Draft, Line};
pub use file::{balance_file, settle_file};
pub use listing::{host, program, HostAnswer};
pub use moves::Move;
pub use plan::{balance, plan, Balanced, Plan};
pub use read::{read, Fault};
pub use run::{apply, run, Answer, Call};
pub use settle::{review, settle, Review, Settled};
pub use sheet::{Batch, Refusal, Sheet};
pub use trial::{trial, Trial, Verdict};
pub use worklist::take;
pub use write::write;
