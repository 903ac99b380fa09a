//! The replay of document 01's traces, shared by the two programs and the tests.

pub mod clock;
pub mod counter;
pub mod generate;
pub mod ledger;
pub mod machine;
pub mod output;
pub mod record;
pub mod refusal;
pub mod replay;
