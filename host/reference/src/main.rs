//! Plays a schedule file by the reference machine: `reference FILE > transcript`, `-` for standard input.
//! A refused file writes nothing; its number goes to standard error, and the status is 1.

fn main() -> std::process::ExitCode {
    common::play_file(reference::play)
}
