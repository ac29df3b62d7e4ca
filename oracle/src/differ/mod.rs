//! The differential judge: the same questions to the original and to the engine, everything compared that can be seen.
pub mod boards;
pub mod calendars;
pub mod chains;
pub mod entries;
pub mod judge;
pub mod lent;
pub mod library;
pub mod objects;
pub mod question;
pub mod questions;
pub mod random;
pub mod refusals;
pub mod run;
pub mod shrink;
pub mod sketch;
pub mod small;
pub mod windows;
