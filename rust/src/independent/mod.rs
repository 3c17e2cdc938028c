//! The implementation written from the papers alone; it names nothing outside this folder.

pub mod compiler;
pub mod layout;
pub mod loader;
pub mod names;
pub mod reference;
pub mod stream;
pub mod tables;
