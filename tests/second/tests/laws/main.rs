//! What the documents say of every answer, checked without the planner's own
//! ways: loads are summed anew, acts and moves are chosen again from the rules,
//! and small sheets are compared with all of their plans.

mod common;
mod files;
mod hard;
mod planning;
mod reading;
mod runs;
mod settling;
mod trials;
mod watch;
mod writing;
