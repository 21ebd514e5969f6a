//! Compares a reference with one rule broken with the reference, to see that the comparison finds faults.

fn main() -> std::process::ExitCode {
    compare::compare("a reference with one rule broken", mutant::play)
}
