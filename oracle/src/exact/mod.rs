//! Request [10] of document 02: a level keeps exactly the keys that match. Written
//! from the request's words, apart from the walk and from the written rules: what a
//! plan's level lets through, and a matcher that reads a key against the pattern.

pub mod conditions;
pub mod given;
pub mod keys;
pub mod matcher;
pub mod pairs;
pub mod passes;
pub mod slots;
pub mod value;
