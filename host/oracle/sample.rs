//! A sample of the histories on which all sides agree, for a program to replay that has no Rust at hand.

use crate::history::Agreed;

/// As many bytes as the crate `replay` reads.
const LONGEST: usize = 400_000;

/// Each schedule and its transcript, with the length of either before it, in four bytes.
fn packed(histories: &[Agreed]) -> Vec<u8> {
    let mut bytes = Vec::new();
    for part in histories.iter().flat_map(|(schedule, transcript)| [schedule, transcript]) {
        bytes.extend_from_slice(&u32::try_from(part.len()).unwrap().to_le_bytes());
        bytes.extend_from_slice(part);
    }
    bytes
}

pub fn write(file: &str, histories: &[Agreed]) -> Result<String, String> {
    let bytes = packed(histories);
    if bytes.len() > LONGEST {
        return Err(format!("not written: {} bytes, and {LONGEST} at most are read", bytes.len()));
    }
    std::fs::write(file, &bytes).map_err(|error| format!("{file}: {error}"))?;
    Ok(format!("{} histories in {} bytes written to {file}\n", histories.len(), bytes.len()))
}
