//! The proved library and its programs as the tests ask them, the two sides held against each other,
//! and the code and documents that tests look into.

pub mod body;
pub mod calls;
pub mod compiler_sides;
pub mod counts;
pub mod demand3;
pub mod ffi;
pub mod json;
pub mod layout_sides;
pub mod machine_code;
pub mod mir;
pub mod programs;
pub mod repository;
pub mod sides;
pub mod timing;
pub mod tools;
pub mod worked;
pub mod worked_layout;
