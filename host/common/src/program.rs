//! The program around a player, and what every program reads of its command line.

use crate::{file, ENTRY, RECORD};
use std::io::{self, Read, Write};
use std::process::ExitCode;

/// A player: a schedule and an output in, the file's answer and the number of bytes written out.
pub type Player = fn(&[u8], &mut [u8]) -> (u64, u64);

/// A number on the command line, or what stands in for it.
pub fn number(word: Option<String>, otherwise: u64) -> u64 {
    match word {
        None => otherwise,
        Some(word) => word.parse().unwrap_or_else(|_| {
            eprintln!("'{word}' is no number");
            std::process::exit(2)
        }),
    }
}

fn read(name: &str) -> io::Result<Vec<u8>> {
    if name != "-" {
        return std::fs::read(name);
    }
    let mut bytes = Vec::new();
    io::stdin().read_to_end(&mut bytes)?;
    Ok(bytes)
}

/// The file that the command line names in, the transcript on standard output.
pub fn play_file(player: Player) -> ExitCode {
    let names: Vec<String> = std::env::args().skip(1).collect();
    let [name] = &names[..] else {
        eprintln!("wanted: the name of a schedule file, or -");
        return ExitCode::from(2);
    };
    let bytes = match read(name) {
        Ok(bytes) => bytes,
        Err(error) => {
            eprintln!("{name}: {error}");
            return ExitCode::from(2);
        }
    };
    let mut out = vec![0; bytes.len() / RECORD * ENTRY];
    let (answer, written) = player(&bytes, &mut out);
    if answer != file::PLAYED {
        eprintln!("{name}: refused, {answer}");
        return ExitCode::FAILURE;
    }
    match io::stdout().write_all(&out[..written as usize]) {
        Ok(()) => ExitCode::SUCCESS,
        Err(error) => {
            eprintln!("standard output: {error}");
            ExitCode::from(2)
        }
    }
}
