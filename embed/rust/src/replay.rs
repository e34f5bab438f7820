//! A pair file over a text in memory, by the feature `replay` and an archive of its own.

pub(crate) mod ffi;

/// How a replay ended.
#[derive(Clone, Copy, Debug, PartialEq, Eq)]
pub enum Ending {
    /// The text was read up to its line `end`, and no entry is `other`.
    Whole,
    /// The same, and the entry of this number is the first `other` entry.
    Other(u64),
    /// The line of this number is refused or missing, or names a frame that wasn't sent.
    Refused(u64),
    /// The report doesn't fit into the memory.
    Cut,
}

/// What a replay wrote, and how it ended.
#[derive(Clone, Copy, Debug, PartialEq, Eq)]
#[must_use]
pub struct Replayed<'r> {
    /// How it ended.
    pub ending: Ending,
    /// The whole report, or with `Cut` a first part of it, which fills the memory.
    pub report: &'r [u8],
}

/// Runs both ends over the text of a pair file, as the program's `replay` does, and writes the report to this memory.
///
/// ```
/// use gatepast::{replay, Ending};
///
/// let mut memory = [0; 100];
/// let replayed = replay(b"", &mut memory);
/// assert_eq!(replayed.ending, Ending::Refused(1));
/// assert_eq!(replayed.report, b"refused 1 End\n");
/// ```
pub fn replay<'r>(text: &[u8], memory: &'r mut [u8]) -> Replayed<'r> {
    let mut ended = ffi::Ended { place: 0, len: 0 };
    // SAFETY: the pointers lead to so many bytes and a struct, all with values; what is written to overlaps nothing.
    let status = unsafe {
        ffi::gp_replay(
            text.as_ptr(),
            text.len(),
            memory.as_mut_ptr(),
            memory.len(),
            &mut ended,
        )
    };
    let ending = match status {
        0 => Ending::Whole,
        1 => Ending::Other(ended.place),
        4 => Ending::Refused(ended.place),
        7 => Ending::Cut,
        _ => crate::other_archive(status),
    };
    Replayed {
        ending,
        report: &memory[..ended.len],
    }
}
