//! The command, its documents and what is installed, tried as a user would.

mod colours;
mod common;
mod damaged;
mod documents;
mod examples;
mod faults;
mod generated;
mod install;
mod interface;
mod outputs;
mod pictures;
mod rule;
mod runs;
