//! Document 01, and document 02 as far as it has landed, in plain Rust, written from the documents alone, so that a mistake in the engine is not
//! repeated here. Slow and plain on purpose: Check looks at all pairs of cells and all rows, and Layout
//! solves the drawing rules as a system of differences by longest paths; it knows no contours.
//!
//! The words are the document's: father, son, brother, sub-diagram, foot, plumb line.

mod copy;
mod drill;
mod frame;
pub mod generate;
mod join;
mod layout;
mod listing;
mod mark;
mod mend;
pub mod making;
mod plan;
mod plan_file;
pub mod rng;
mod rules;
mod strokes;
mod strip;
mod season;

pub use copy::{clean_form, content, copy, Content, COPY};
pub use drill::{drill, drill_met, transcript, Drill, Outcome, ANSWERS, RECORDS};
pub use frame::frame;
pub use join::{ask_part, join};
pub use layout::{distances_by_pairs, distances_by_paths, layout, place, SCRATCH};
pub use listing::{list, listing, LISTING};
pub use mark::{mark, Mark};
pub use mend::{lines, mend, mended, Altered, LINES, MENDED};
pub use plan::{Cell, Plan, Refusal, MAX_CELLS, MAX_WIDTH, ROOT};
pub use plan_file::{label, label_refusal, read, Form, FORMS};
pub use rules::{boxes_meet, check, crossings, ends, measure, Ends, Measure, Verdict, MAX_COORDINATE};
pub use strokes::{stroke, Page, Stroke};
pub use strip::strip;
pub use season::{pool, report, Figures, Report};
