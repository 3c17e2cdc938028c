//! Random numbers, and what is generated from them: streams, layouts, records and memories.

pub mod guided;
pub mod layouts;
pub mod memories;
pub mod random;
pub mod records;
