//! The call of the archive as `replay.h` declares it, and the layout that it was built for.

use core::mem::{offset_of, size_of};

#[repr(C)]
pub struct Ended {
    pub place: u64,
    pub len: usize,
}

const _: () = {
    assert!(size_of::<usize>() == 8 && size_of::<Ended>() == 16);
    assert!(offset_of!(Ended, place) == 0 && offset_of!(Ended, len) == 8);
};

extern "C" {
    pub fn gp_replay(
        text: *const u8,
        text_len: usize,
        report: *mut u8,
        report_len: usize,
        ended: *mut Ended,
    ) -> u8;
    pub fn gp_replay_build(text: *mut u8, text_len: usize) -> u8;
}
