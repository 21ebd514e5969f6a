//! What the programs share: the sizes and the numbers by name, schedules and transcripts as bytes and as text, random
//! numbers that a seed repeats, the shrinking of a failure, and the program around a player.

mod bytes;
mod names;
mod program;
mod random;
mod shrink;
mod text;

pub use bytes::{answered, schedule, turns, Record, Reply};
pub use names::*;
pub use program::{number, play_file, Player};
pub use random::Random;
pub use shrink::{shrink, shrink_within, simplify};
pub use text::{line, text};
