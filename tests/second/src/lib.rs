//! The second program: an independent reading of the rules, compared with the library through C.

pub mod batch;
pub mod boundary;
pub mod cache;
pub mod damaged;
pub mod explained;
pub mod ledger;
pub mod library;
pub mod message;
pub mod messages;
pub mod model;
pub mod pair;
pub mod random;
pub mod reached;
pub mod requests;
pub mod run;
pub mod shrink;
pub mod table;
pub mod tally;
pub mod writer;
