//! The other reading held against the paper's own rows and sentences.

mod carry_over;
mod commands;
mod outcomes;
mod reason;
mod rows;
mod scene_switch;
mod sessions;
mod units;
mod world;
