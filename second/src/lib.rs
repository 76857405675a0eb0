//! A second implementation of the HN-HO-72 load kernel for girder lines,
//! written from papers 01 and 02 alone and shaped like their definitions. "01"
//! and "02" in the comments are those papers; a quoted title names a section of
//! 01 or a request of 02.

#![forbid(unsafe_code)]

pub mod account;
pub mod arch_job;
pub mod arrangement;
pub mod checker;
pub mod chosen;
pub mod combination;
pub mod deck_job;
pub mod edition;
pub mod farm;
pub mod farm_job;
pub mod form;
pub mod fraction;
pub mod generator;
pub mod job;
pub mod job_a;
pub mod lanes;
pub mod line;
pub mod loads;
pub mod motorway_job;
pub mod refusals;
pub mod report;
pub mod rng;
pub mod rows;
pub mod sampler;
pub mod sections;
pub mod solve;
pub mod spelled_job;
pub mod store;
pub mod traffic;
pub mod train;
pub mod wide_words;
pub mod words;

pub use account::{Account, Answer};
pub use solve::solve;
