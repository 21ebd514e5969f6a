//! Compares the proved player with the reference: `compare [CALLS [SEED]]`.

fn main() -> std::process::ExitCode {
    match lrt::player() {
        Some(player) => compare::compare("the proved player", player),
        None => {
            println!("nothing was compared: this program was built without the proved player");
            std::process::ExitCode::from(3)
        }
    }
}
