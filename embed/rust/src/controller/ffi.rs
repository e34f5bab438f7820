//! The calls of the archive as `gatepast_controller.h` declares them, and the layout that it was built for.

use core::mem::{offset_of, size_of};

use crate::ffi::{Did, Frame, Handle, MasterSettings, Terms};

use super::Unit;

pub const CONTROLLER_SIZE: usize = 1160;
pub const CONTROLLER_VERSION: u32 = 1;
pub const COUNTED_CODES: usize = 13;

/// How many of each a controller is to have room for.
#[repr(C)]
#[derive(Clone, Copy, Debug, PartialEq, Eq)]
pub struct Most {
    /// Connections, at most 64.
    pub connections: u16,
    /// Blocks, at most 256.
    pub blocks: u16,
    /// Drives, at most 1024.
    pub drives: u16,
}

/// What happened at a connection since its counts were cleared. A count that reached 2^32 - 1 stays there.
#[repr(C)]
#[derive(Clone, Copy, Debug, Default, PartialEq, Eq)]
pub struct Counts {
    /// Sessions that began.
    pub sessions: u32,
    /// Resets by a call.
    pub local: u32,
    /// Resets by the slave: a place for each code from 0 to 0Bh, and the last one for all others.
    pub peer: [u32; COUNTED_CODES],
    /// Resets for a fault that the controller found, in the same places.
    pub found: [u32; COUNTED_CODES],
    /// Frames that were dropped, by their reasons in the order of [`Dropped`](crate::Dropped).
    pub dropped: [u32; 3],
}

#[repr(C)]
pub struct Bit {
    pub connection: u16,
    pub bit: u16,
}

#[repr(C)]
#[derive(Clone, Copy)]
pub struct Wire {
    pub connection: u16,
    pub number: u16,
}

#[repr(C)]
pub struct Fault {
    pub block: u16,
    pub connection: u16,
    pub bit: u16,
}

const _: () = {
    assert!(size_of::<Unit>() == 16);
    assert!(size_of::<Most>() == 6 && offset_of!(Most, connections) == 0);
    assert!(offset_of!(Most, blocks) == 2 && offset_of!(Most, drives) == 4);
    assert!(size_of::<Counts>() == 124 && offset_of!(Counts, sessions) == 0);
    assert!(offset_of!(Counts, local) == 4 && offset_of!(Counts, peer) == 8);
    assert!(offset_of!(Counts, found) == 60 && offset_of!(Counts, dropped) == 112);
    assert!(size_of::<Bit>() == 4 && offset_of!(Bit, connection) == 0 && offset_of!(Bit, bit) == 2);
    assert!(size_of::<Wire>() == 4 && offset_of!(Wire, connection) == 0);
    assert!(offset_of!(Wire, number) == 2);
    assert!(size_of::<Fault>() == 6 && offset_of!(Fault, block) == 0);
    assert!(offset_of!(Fault, connection) == 2 && offset_of!(Fault, bit) == 4);
};

extern "C" {
    pub fn gp_controller_version() -> u32;
    pub fn gp_controller_build(text: *mut u8, text_len: usize) -> u8;
    pub fn gp_controller_size() -> usize;
    pub fn gp_controller_align() -> usize;
    pub fn gp_controller_open(
        controller: *mut Handle,
        region: *mut Unit,
        size: usize,
        most: *const Most,
    ) -> u8;
    pub fn gp_controller_connect(
        controller: *mut Handle,
        set: *const MasterSettings,
        app: *const u8,
        app_len: usize,
        connection: *mut u16,
    ) -> u8;
    pub fn gp_controller_block(
        controller: *mut Handle,
        kind: u8,
        n: u16,
        inputs: *const Wire,
        inputs_len: usize,
        block: *mut u16,
    ) -> u8;
    pub fn gp_controller_drive(
        controller: *mut Handle,
        output: *const Bit,
        from: *const Wire,
    ) -> u8;
    pub fn gp_controller_start(controller: *mut Handle, fault: *mut Fault) -> u8;
    pub fn gp_controller_end(controller: *mut Handle) -> u8;

    pub fn gp_controller_deliver(
        controller: *mut Handle,
        connection: u16,
        frame: *const u8,
        frame_len: usize,
        out: *mut Frame,
        did: *mut Did,
    ) -> u8;
    pub fn gp_controller_tick(controller: *mut Handle) -> u8;
    pub fn gp_controller_ticked(
        controller: *mut Handle,
        connection: u16,
        out: *mut Frame,
        did: *mut Did,
    ) -> u8;
    pub fn gp_controller_reset(
        controller: *mut Handle,
        connection: u16,
        out: *mut Frame,
        did: *mut Did,
    ) -> u8;
    pub fn gp_controller_hold(controller: *mut Handle, connection: u16, failsafe: bool) -> u8;
    pub fn gp_controller_nonce(controller: *mut Handle, connection: u16, id: u32) -> u8;

    pub fn gp_controller_connections(controller: *mut Handle, count: *mut u16) -> u8;
    pub fn gp_controller_state(controller: *mut Handle, connection: u16, state: *mut u8) -> u8;
    pub fn gp_controller_inputs(
        controller: *mut Handle,
        connection: u16,
        inputs: *mut u8,
        inputs_len: usize,
    ) -> u8;
    pub fn gp_controller_offer(
        controller: *mut Handle,
        connection: u16,
        offer: *mut u8,
        offer_len: usize,
    ) -> u8;
    pub fn gp_controller_terms(controller: *mut Handle, connection: u16, terms: *mut Terms) -> u8;
    pub fn gp_controller_age(controller: *mut Handle, connection: u16, age: *mut u16) -> u8;
    pub fn gp_controller_held(controller: *mut Handle, connection: u16, held: *mut u8) -> u8;
    pub fn gp_controller_changed(controller: *mut Handle, connection: u16, changed: *mut u8) -> u8;
    pub fn gp_controller_counts(
        controller: *mut Handle,
        connection: u16,
        counts: *mut Counts,
    ) -> u8;
    pub fn gp_controller_clear_counts(controller: *mut Handle, connection: u16) -> u8;
    pub fn gp_controller_value(controller: *mut Handle, block: u16, value: *mut u8) -> u8;
    pub fn gp_controller_guards(
        controller: *mut Handle,
        output: *const Bit,
        input: *const Bit,
        guards: *mut u8,
    ) -> u8;
}
