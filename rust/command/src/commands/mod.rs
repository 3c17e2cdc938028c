//! The subcommands.

pub mod build;
pub mod check;
pub mod explain;
pub mod layout;
pub mod load;
pub mod map;
pub mod tables;
