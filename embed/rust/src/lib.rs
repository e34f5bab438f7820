//! Both ends of a Gatepast connection, Safety over EtherCAT in a profile of its own.
//!
//! An end has no clock and no communication interface: your program passes in frames and ticks, and sends its frames.
//! It lies in memory that you lend it, allocates none, and needs no operating system. The source of the archive is
//! proved to do what the profile says; this package is a thin layer over it, and isn't proved. The archive refuses no
//! call of an end that the types allow. Lengths are part of the type of an end, a session id has the bits that its
//! profile allows, and a master that owes a frame sends it first. Your other duties are in `docs/duties.md`: send each
//! step's frame, give a fresh id before each session, tick, apply the outputs. `examples/drive.rs` is a whole loop.
//!
//! With the feature `controller` a `Plan` of connections and function blocks becomes a `Controller`, over an archive of
//! its own. Its lengths and numbers are those of the run, and a call that may be refused returns a `Result`.
//!
//! Keep the last frame, and send it again until a step gives the next, but never an older one: an end drops the frame
//! that it took last, so that a lost frame is no stop. Datagrams may overtake each other, and an older frame ends its
//! session: number them, and throw away those whose number doesn't rise. Over a cyclic image deliver the bytes of the
//! peer's slot in each cycle, changed or not, if they came whole, and leave yours as it is while a step has no frame. A
//! program that was late counts all ticks before it delivers what waited: else old data switch outputs on.
//!
//! ```
//! use core::num::NonZeroU16;
//! use gatepast::{One, Rule, Slave, SlaveMemory, SlaveSettings, State};
//!
//! let mut memory = SlaveMemory::new();
//! let settings = SlaveSettings {
//!     address: 2,
//!     hand: NonZeroU16::new(200).unwrap(),
//!     most: NonZeroU16::new(1000).unwrap(),
//!     profile: One { nonce: 2 },
//! };
//! // the master's frames carry 2 safe data bytes, and this slave's 4
//! let mut slave = Slave::<One, 2, 4>::new(&mut memory, &settings, Rule::any::<0>());
//! slave.put(&[1, 2, 3, 4]);
//! let step = slave.deliver(&[0x2A, 0, 0, 0xC4, 0x2D, 0, 0]);
//! assert_eq!(step.send().map(<[u8]>::len), Some(11));
//! assert_eq!(slave.state(), State::Reset);
//! assert_eq!(slave.outputs(), [0, 0]);
//! ```
#![no_std]
#![warn(missing_docs)]

#[cfg(feature = "controller")]
mod controller;
mod ffi;
mod master;
#[cfg(feature = "replay")]
mod replay;
mod settings;
mod slave;
mod step;

#[cfg(feature = "controller")]
pub use controller::{
    Bit, Block, Connection, Controller, ControllerMemory, Counts, Fault, Kind, Lengths, Most, Plan,
    Refused, Unit, Wire,
};
pub use master::{Accepted, Due, Master, MasterMemory};
#[cfg(feature = "replay")]
pub use replay::{replay, Ending, Replayed};
pub use settings::{App, MasterSettings, One, Profile, Rule, SlaveSettings, Two};
pub use slave::{Slave, SlaveMemory};
pub use step::{Cause, Code, Command, Dropped, State, Step, Terms, Took};

/// The bytes of the line that [`build`] returns.
pub const BUILD_LENGTH: usize = 136;

/// A line with its line end: the sources and the toolchain that the archive was made of.
///
/// ```
/// assert!(gatepast::build().starts_with(b"gatepast 0.2.0 sources "));
/// ```
pub fn build() -> [u8; BUILD_LENGTH] {
    build_by(ffi::gp_build)
}

/// What [`build`] returns, of the archive of the controller.
#[cfg(feature = "controller")]
pub fn controller_build() -> [u8; BUILD_LENGTH] {
    build_by(controller::ffi::gp_controller_build)
}

/// What [`build`] returns, of the archive of `replay`.
#[cfg(feature = "replay")]
pub fn replay_build() -> [u8; BUILD_LENGTH] {
    build_by(replay::ffi::gp_replay_build)
}

fn build_by(call: unsafe extern "C" fn(*mut u8, usize) -> u8) -> [u8; BUILD_LENGTH] {
    let mut text = [0; BUILD_LENGTH];
    // SAFETY: the pointer leads to so many bytes, all with values.
    done(unsafe { call(text.as_mut_ptr(), text.len()) });
    text
}

/// The bytes of memory that a slave and a master take.
pub const SIZES: (usize, usize) = (ffi::SLAVE_SIZE, ffi::MASTER_SIZE);

/// Whether frames can carry this many safe data bytes.
const fn is_length(len: usize) -> bool {
    len == 1 || (len >= 2 && len <= 126 && len % 2 == 0)
}

/// Panics if the archive isn't of this package's version, or its ends need other memory.
fn check_archive() {
    // SAFETY: the calls take nothing.
    let fits = unsafe {
        ffi::gp_version() == ffi::VERSION
            && (ffi::gp_slave_size(), ffi::gp_master_size()) == SIZES
            && (ffi::gp_slave_align(), ffi::gp_master_align()) == (8, 8)
    };
    assert!(fits, "gatepast: the archive is not the one of this package");
}

/// The library refused a call that the types allow, so the archive isn't the one that this package was written for.
#[cold]
fn other_archive(answer: u8) -> ! {
    panic!("gatepast: the archive answered {answer}; it is not the one of this package")
}

fn done(answer: u8) {
    if answer != ffi::OK {
        other_archive(answer);
    }
}

/// What doesn't compile: an end of a length that frames can't carry, which a build refuses, and `cargo check` doesn't,
///
/// ```compile_fail,E0080
/// # use core::num::NonZeroU16;
/// # use gatepast::{One, Rule, Slave, SlaveMemory, SlaveSettings};
/// # let one = NonZeroU16::MIN;
/// let settings = SlaveSettings { address: 2, hand: one, most: one, profile: One { nonce: 2 } };
/// let mut memory = SlaveMemory::new();
/// let mut slave = Slave::<One, 3, 2>::new(&mut memory, &settings, Rule::any::<0>());
/// ```
///
/// a put of a wrong length,
///
/// ```compile_fail,E0308
/// # fn f(slave: &mut gatepast::Slave<'_, gatepast::One, 2, 2>) {
/// slave.put(&[1, 2, 3]);
/// # }
/// ```
///
/// a session id that profile One doesn't allow,
///
/// ```compile_fail
/// # #![deny(overflowing_literals)]
/// # fn f(slave: &mut gatepast::Slave<'_, gatepast::One, 2, 2>) {
/// slave.nonce(65_536);
/// # }
/// ```
///
/// a step of a master that owes a frame,
///
/// ```compile_fail,E0499
/// # fn f(master: &mut gatepast::Master<'_, gatepast::One, 2, 2>, due: gatepast::Due<'_, '_, gatepast::One, 2, 2>) {}
/// # fn g(master: &mut gatepast::Master<'_, gatepast::One, 2, 2>) {
/// if let gatepast::Accepted::Due(due) = master.accept(&[]) {
///     let _step = master.tick();
///     let _frame = due.reply();
/// }
/// # }
/// ```
///
/// the use of memory that an end lies in,
///
/// ```compile_fail,E0505
/// # use core::num::NonZeroU16;
/// # use gatepast::{One, Rule, Slave, SlaveMemory, SlaveSettings};
/// # let one = NonZeroU16::MIN;
/// # let settings = SlaveSettings { address: 2, hand: one, most: one, profile: One { nonce: 2 } };
/// let mut memory = SlaveMemory::new();
/// let mut slave = Slave::<One, 2, 2>::new(&mut memory, &settings, Rule::any::<0>());
/// drop(memory);
/// slave.put(&[1, 2]);
/// ```
///
/// and, if warnings are errors, a step that nobody looks at.
///
/// ```compile_fail
/// # #![deny(unused_must_use)]
/// # fn f(slave: &mut gatepast::Slave<'_, gatepast::One, 2, 2>) {
/// slave.tick();
/// # }
/// ```
#[cfg(doctest)]
pub struct WrongCalls;
