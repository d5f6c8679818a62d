//! The second implementation: slow and obvious, written from the rules alone. It shares no code and no table with the proved one.
pub mod aes;
pub mod card;
pub mod cipher;
pub mod field;
pub mod manifest;
pub mod mode;
pub mod xtea;
