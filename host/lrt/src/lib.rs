//! The proved player, as a safe Rust function.
//!
//! The proved crates are compiled to a static library that exports `lrt_play`. Where the build script finds it, this
//! wraps it (cfg `proved`). Else everything compiles the same, and there is no player.

use common::Player;

#[cfg(proved)]
mod proved {
    /// As the library hands it back: two words in registers.
    #[repr(C)]
    struct Played {
        answer: u64,
        written: u64,
    }

    extern "C" {
        fn lrt_play(schedule: *const u8, schedule_len: usize, out: *mut u8, out_len: usize) -> Played;
    }

    /// Plays a schedule from a fresh machine: the file's answer, and how many bytes of `out` were written.
    pub fn play(schedule: &[u8], out: &mut [u8]) -> (u64, u64) {
        // Safety: the library reads the schedule and writes the output within these lengths, keeps neither, and holds
        // no memory of its own. The two cannot overlap, since one is lent and the other lent alone. An empty slice's
        // pointer is dangling and never null, as the library wants it.
        let played = unsafe { lrt_play(schedule.as_ptr(), schedule.len(), out.as_mut_ptr(), out.len()) };
        assert!(played.written <= out.len() as u64, "more was written than there was room for");
        (played.answer, played.written)
    }
}

#[cfg(proved)]
pub use proved::play;

/// The proved player, if this was built with it.
pub fn player() -> Option<Player> {
    #[cfg(proved)]
    return Some(play);
    #[cfg(not(proved))]
    None
}

#[cfg(test)]
mod tests;
