//! The benchmark's parts.

pub mod bounds;
pub mod judges;
pub mod measure;
pub mod stack;
pub mod subjects;
pub mod tables;
