//! The calls of the archive as `gatepast.h` declares them, and the layout that it was built for.

use core::ffi::c_void;
use core::mem::{align_of, offset_of, size_of};

pub const OK: u8 = 0;
pub const FRAME_DUE: u8 = 11;
pub const NOT_IN_DATA: u8 = 13;

pub const VERSION: u32 = 2;
pub const SLAVE_SIZE: usize = 2888;
pub const MASTER_SIZE: usize = 2336;

#[repr(C)]
pub struct Handle {
    pub memory: *mut c_void,
    pub live: bool,
}

#[repr(C)]
#[derive(Clone, Copy)]
pub struct Frame {
    pub len: usize,
    pub bytes: [u8; 255],
}

#[repr(C)]
#[derive(Clone, Copy)]
pub struct Did {
    pub took: u8,
    pub passed: u8,
    pub sent: u8,
    pub reset: u8,
    pub code: u8,
    pub dropped: u8,
    pub load_len: u8,
    pub load: [u8; 126],
    pub used: u8,
}

#[repr(C)]
pub struct Terms {
    pub conn: u16,
    pub address: u16,
    pub watchdog: u16,
    pub word: u16,
    pub app_len: u16,
    pub profile: u8,
    pub app: [u8; 512],
}

#[repr(C)]
pub struct SlaveSettings {
    pub master_len: u16,
    pub slave_len: u16,
    pub address: u16,
    pub hand: u16,
    pub most: u16,
    pub profile: u16,
    pub nonce: u32,
    pub word: u16,
}

#[repr(C)]
pub struct MasterSettings {
    pub master_len: u16,
    pub slave_len: u16,
    pub conn: u16,
    pub address: u16,
    pub watchdog: u16,
    pub profile: u16,
    pub nonce: u32,
    pub word: u16,
}

const _: () = {
    assert!(size_of::<usize>() == 8 && size_of::<Handle>() == 16);
    assert!(offset_of!(Handle, memory) == 0 && offset_of!(Handle, live) == 8);
    assert!(size_of::<Frame>() == 264 && offset_of!(Frame, bytes) == 8);
    assert!(size_of::<Did>() == 134 && align_of::<Did>() == 1);
    assert!(
        offset_of!(Did, took) == 0 && offset_of!(Did, passed) == 1 && offset_of!(Did, sent) == 2
    );
    assert!(
        offset_of!(Did, reset) == 3 && offset_of!(Did, code) == 4 && offset_of!(Did, dropped) == 5
    );
    assert!(
        offset_of!(Did, load_len) == 6
            && offset_of!(Did, load) == 7
            && offset_of!(Did, used) == 133
    );
    assert!(
        size_of::<Terms>() == 524
            && offset_of!(Terms, conn) == 0
            && offset_of!(Terms, address) == 2
    );
    assert!(
        offset_of!(Terms, watchdog) == 4
            && offset_of!(Terms, word) == 6
            && offset_of!(Terms, app_len) == 8
    );
    assert!(offset_of!(Terms, profile) == 10 && offset_of!(Terms, app) == 11);
    assert!(size_of::<SlaveSettings>() == 20 && offset_of!(SlaveSettings, master_len) == 0);
    assert!(offset_of!(SlaveSettings, slave_len) == 2 && offset_of!(SlaveSettings, address) == 4);
    assert!(offset_of!(SlaveSettings, hand) == 6 && offset_of!(SlaveSettings, most) == 8);
    assert!(offset_of!(SlaveSettings, profile) == 10 && offset_of!(SlaveSettings, nonce) == 12);
    assert!(offset_of!(SlaveSettings, word) == 16);
    assert!(size_of::<MasterSettings>() == 20 && offset_of!(MasterSettings, master_len) == 0);
    assert!(offset_of!(MasterSettings, slave_len) == 2 && offset_of!(MasterSettings, conn) == 4);
    assert!(offset_of!(MasterSettings, address) == 6 && offset_of!(MasterSettings, watchdog) == 8);
    assert!(offset_of!(MasterSettings, profile) == 10 && offset_of!(MasterSettings, nonce) == 12);
    assert!(offset_of!(MasterSettings, word) == 16);
};

extern "C" {
    pub fn gp_version() -> u32;
    pub fn gp_build(text: *mut u8, text_len: usize) -> u8;

    pub fn gp_slave_size() -> usize;
    pub fn gp_slave_align() -> usize;
    pub fn gp_slave_init(slave: *mut Handle, set: *const SlaveSettings, app_len: u16) -> u8;
    pub fn gp_slave_init_exact(
        slave: *mut Handle,
        set: *const SlaveSettings,
        app: *const u8,
        app_len: usize,
    ) -> u8;
    pub fn gp_slave_init_ranges(
        slave: *mut Handle,
        set: *const SlaveSettings,
        low: *const u8,
        low_len: usize,
        high: *const u8,
        high_len: usize,
    ) -> u8;
    pub fn gp_slave_end(slave: *mut Handle) -> u8;
    pub fn gp_slave_deliver(
        slave: *mut Handle,
        frame: *const u8,
        frame_len: usize,
        out: *mut Frame,
        did: *mut Did,
    ) -> u8;
    pub fn gp_slave_tick(slave: *mut Handle, out: *mut Frame, did: *mut Did) -> u8;
    pub fn gp_slave_reset(slave: *mut Handle, out: *mut Frame, did: *mut Did) -> u8;
    pub fn gp_slave_put(slave: *mut Handle, load: *const u8, load_len: usize) -> u8;
    pub fn gp_slave_hold(slave: *mut Handle, failsafe: bool) -> u8;
    pub fn gp_slave_nonce(slave: *mut Handle, id: u32) -> u8;
    pub fn gp_slave_state(slave: *mut Handle, state: *mut u8) -> u8;
    pub fn gp_slave_outputs(slave: *mut Handle, outputs: *mut u8, outputs_len: usize) -> u8;
    pub fn gp_slave_offer(slave: *mut Handle, offer: *mut u8, offer_len: usize) -> u8;
    pub fn gp_slave_terms(slave: *mut Handle, terms: *mut Terms) -> u8;
    pub fn gp_slave_age(slave: *mut Handle, age: *mut u16) -> u8;
    pub fn gp_slave_held(slave: *mut Handle, held: *mut u8) -> u8;

    pub fn gp_master_size() -> usize;
    pub fn gp_master_align() -> usize;
    pub fn gp_master_init(
        master: *mut Handle,
        set: *const MasterSettings,
        app: *const u8,
        app_len: usize,
    ) -> u8;
    pub fn gp_master_end(master: *mut Handle) -> u8;
    pub fn gp_master_deliver(
        master: *mut Handle,
        frame: *const u8,
        frame_len: usize,
        out: *mut Frame,
        did: *mut Did,
    ) -> u8;
    pub fn gp_master_accept(
        master: *mut Handle,
        frame: *const u8,
        frame_len: usize,
        did: *mut Did,
    ) -> u8;
    pub fn gp_master_due(master: *mut Handle, due: *mut u8) -> u8;
    pub fn gp_master_reply(master: *mut Handle, out: *mut Frame) -> u8;
    pub fn gp_master_tick(master: *mut Handle, out: *mut Frame, did: *mut Did) -> u8;
    pub fn gp_master_reset(master: *mut Handle, out: *mut Frame, did: *mut Did) -> u8;
    pub fn gp_master_put(master: *mut Handle, load: *const u8, load_len: usize) -> u8;
    pub fn gp_master_hold(master: *mut Handle, failsafe: bool) -> u8;
    pub fn gp_master_nonce(master: *mut Handle, id: u32) -> u8;
    pub fn gp_master_state(master: *mut Handle, state: *mut u8) -> u8;
    pub fn gp_master_outputs(master: *mut Handle, outputs: *mut u8, outputs_len: usize) -> u8;
    pub fn gp_master_offer(master: *mut Handle, offer: *mut u8, offer_len: usize) -> u8;
    pub fn gp_master_terms(master: *mut Handle, terms: *mut Terms) -> u8;
    pub fn gp_master_age(master: *mut Handle, age: *mut u16) -> u8;
    pub fn gp_master_held(master: *mut Handle, held: *mut u8) -> u8;
}
