//! The reference that the library is compared with: document 000 as it was published, with E, S and C for `exp`, `sin` and
//! `cos` (`build.rs`), document 01's rules, and the jobs of the replay bench answered by them.

pub mod cut;
pub mod decimals;
pub mod draw;
pub mod grids;
pub mod jobs;
pub mod names;
pub mod numbers;
pub mod plan;
pub mod rules;
pub mod sample;
pub mod sheets;
pub mod stand_in;
pub mod tally;

include!(concat!(env!("OUT_DIR"), "/published.rs"));
