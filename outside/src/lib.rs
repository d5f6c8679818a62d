//! The lock from outside: a second implementation of all its rules, and the proved library behind safe functions.
pub mod both;
pub mod fast;
pub mod proved;
pub mod random;
pub mod second;
