//! An independent reading of the rules for route plans: check a record, judge a list, count what a
//! pass carried, follow a route back to its start, cut out a fragment, join two networks, and the
//! calls over bytes. The rest makes inputs: for tests, for stored cases and for timing.
#![forbid(unsafe_code)]

pub mod call;
pub mod census;
pub mod cut;
pub mod form;
pub mod join;
pub mod judge;
mod lay;
pub mod program;
pub mod record;
pub mod refusal;
pub mod route;
pub mod trail;

pub mod bench;
pub mod cases;
pub mod damage;
pub mod input;
pub mod known;
pub mod plan;
pub mod random;
pub mod scene;
pub mod settle;
pub mod shapes;
