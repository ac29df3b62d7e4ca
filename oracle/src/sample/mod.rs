//! A sample of the original's answers as a list that the gate replays with no Rust at hand (crates/replay_vectors): boards and questions of the differ, and chosen ones; answers of the original, refusals of the model.
pub mod applications;
pub mod blackboard;
pub mod calendars;
pub mod chains;
pub mod damaged;
pub mod hooks;
pub mod indexes;
pub mod large;
pub mod lending;
pub mod line;
pub mod lists;
pub mod sampler;
pub mod segments;
