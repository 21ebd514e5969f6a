//! Plays a schedule file by the proved player: `proved FILE > transcript`, `-` for standard input.
//! A refused file writes nothing; its number goes to standard error, and the status is 1.

fn main() -> std::process::ExitCode {
    match lrt::player() {
        Some(player) => common::play_file(player),
        None => {
            eprintln!("this program was built without the proved player");
            std::process::ExitCode::from(3)
        }
    }
}
