//! A controller, by the feature `controller` and an archive of its own.

pub(crate) mod ffi;
mod net;

use core::marker::PhantomData;
use core::mem::{size_of_val, MaybeUninit};
use core::num::NonZeroU16;

use crate::ffi::{Did, Frame, Handle, NOT_IN_DATA, OK};
use crate::settings::{MasterSettings, Profile};
use crate::step::{state, State, Step, Terms, NOTHING, NO_FRAME, NO_TERMS};
use crate::{done, other_archive};

pub use ffi::{Counts, Most};
pub use net::{Bit, Block, Connection, Fault, Kind, Wire};

/// Memory for a controller, besides its region.
#[repr(C, align(8))]
pub struct ControllerMemory([MaybeUninit<u8>; ffi::CONTROLLER_SIZE]);

impl ControllerMemory {
    /// Memory without a controller.
    pub const fn new() -> ControllerMemory {
        ControllerMemory([MaybeUninit::zeroed(); ffi::CONTROLLER_SIZE])
    }
}

impl Default for ControllerMemory {
    fn default() -> ControllerMemory {
        ControllerMemory::new()
    }
}

/// A unit of the region in which connections and blocks lie: 16 bytes, aligned to 16.
#[repr(C, align(16))]
pub struct Unit([MaybeUninit<u8>; 16]);

impl Unit {
    /// A unit that nothing lies in.
    pub const EMPTY: Unit = Unit([MaybeUninit::zeroed(); 16]);
}

impl Most {
    /// The units of a region that are enough for so many, whatever they are: `[Unit::EMPTY; MOST.units()]`.
    pub const fn units(self) -> usize {
        let drives = (5 * self.drives as usize).div_ceil(8);
        9 + 161 * self.connections as usize + 6 * self.blocks as usize + drives
    }
}

/// The bytes of safe data of a connection, each 1, or even and from 2 to 126.
#[derive(Clone, Copy, Debug, PartialEq, Eq)]
pub struct Lengths {
    /// The bytes that the controller sends.
    pub master: u16,
    /// The bytes that the slave sends.
    pub slave: u16,
}

/// Why a call was refused: it changed nothing.
#[derive(Clone, Copy, Debug, PartialEq, Eq)]
pub enum Refused {
    /// A length isn't one that frames can carry, or a slice has another length than the data of its connection.
    BadLength,
    /// A session id above 65535 in profile One.
    BadNonce,
    /// The region has no room.
    NoMemory,
    /// No connection has this number.
    NoConnection,
    /// There would be more than 64 connections, 256 blocks, 1024 drives, or 8 inputs of a block.
    TooMany,
    /// Another connection has this connection id.
    SameConn,
    /// No block has this number.
    NoBlock,
    /// No connection receives this bit.
    NoInput,
    /// No connection sends this bit.
    NoOutput,
}

fn answered(answer: u8) -> Result<(), Refused> {
    Err(match answer {
        OK => return Ok(()),
        3 => Refused::BadLength,
        5 => Refused::BadNonce,
        20 => Refused::NoMemory,
        23 => Refused::NoConnection,
        24 => Refused::TooMany,
        25 => Refused::SameConn,
        27 => Refused::NoBlock,
        30 => Refused::NoInput,
        31 => Refused::NoOutput,
        _ => other_archive(answer),
    })
}

/// Panics if the archive isn't of this package's version, or its controllers need other memory.
fn check_archive() {
    // SAFETY: the calls take nothing.
    let fits = unsafe {
        ffi::gp_controller_version() == ffi::CONTROLLER_VERSION
            && (ffi::gp_controller_size(), ffi::gp_controller_align()) == (ffi::CONTROLLER_SIZE, 8)
    };
    assert!(
        fits,
        "gatepast: the archive of a controller is not the one of this package"
    );
}

/// A handle with the memory and the region that are lent to it.
struct Lent<'m> {
    handle: Handle,
    memory: PhantomData<&'m mut ControllerMemory>,
    region: PhantomData<&'m mut [Unit]>,
}

// SAFETY: memory and region are lent only to this value. That the library keeps nothing elsewhere, also nothing of a
// thread, is believed: the proof is of calls in one thread.
unsafe impl Send for Lent<'_> {}

impl Drop for Lent<'_> {
    fn drop(&mut self) {
        // SAFETY: the handle is the library's since `open`. That nothing uses the region after this call is tried.
        let _none = unsafe { ffi::gp_controller_end(&mut self.handle) };
    }
}

/// A controller that is being made: say what it has, and start it. Connections, blocks and drives have numbers from 1,
/// in the order in which they come. Nothing comes back before the plan or its controller is dropped: then memory and
/// region are yours again.
///
/// ```
/// use core::num::NonZeroU16;
/// use gatepast::{App, ControllerMemory, Kind, Lengths, MasterSettings, Most, One, Plan, State, Unit, Wire};
///
/// const MOST: Most = Most { connections: 1, blocks: 1, drives: 1 };
/// let mut memory = ControllerMemory::new();
/// let mut region = [Unit::EMPTY; MOST.units()];
/// let mut plan = Plan::open(&mut memory, &mut region, MOST)?;
/// let settings = MasterSettings {
///     conn: NonZeroU16::new(1).unwrap(),
///     address: 2,
///     watchdog: NonZeroU16::new(100).unwrap(),
///     app: App::NONE,
///     profile: One { nonce: 1 },
/// };
/// let machine = plan.connect(Lengths { master: 2, slave: 2 }, &settings)?;
/// // the motor may run while the stop (bit 0) is released and the door (bit 1) is shut
/// let (motor, stop, door) = (machine.bit(0), machine.bit(0), machine.bit(1));
/// let may_run = plan.block(Kind::And, &[Wire::Input(stop), Wire::Input(door)])?;
/// plan.drive(motor, Wire::Block(may_run))?;
/// let mut controller = plan.start().expect("the net has no fault");
/// assert!(controller.guards(motor, stop)? && controller.guards(motor, door)?);
///
/// controller.tick();
/// assert_eq!(controller.ticked(machine)?.send(), Some(&[0x2A, 0, 0, 0xC4, 0x2D, 0, 0][..]));
/// assert_eq!(controller.state(machine)?, State::Reset);
/// assert_eq!(controller.value(may_run)?, false);
/// # Ok::<(), gatepast::Refused>(())
/// ```
pub struct Plan<'m> {
    lent: Lent<'m>,
}

impl<'m> Plan<'m> {
    /// Creates a plan of nothing, with room for so many. The region may be larger than these need. Refused by
    /// `NoMemory`.
    pub fn open(
        memory: &'m mut ControllerMemory,
        region: &'m mut [Unit],
        most: Most,
    ) -> Result<Plan<'m>, Refused> {
        check_archive();
        let mut lent = Lent {
            handle: Handle {
                memory: memory.0.as_mut_ptr().cast(),
                live: false,
            },
            memory: PhantomData,
            region: PhantomData,
        };
        let size = size_of_val(region);
        // SAFETY: the handle is new, and its memory a controller's. Both are lent for as long as it lives.
        answered(unsafe {
            ffi::gp_controller_open(&mut lent.handle, region.as_mut_ptr(), size, &most)
        })?;
        Ok(Plan { lent })
    }

    /// Adds a connection. It is in state Reset, and the controller's first tick sends its first frame. Refused by
    /// `BadLength`, then `TooMany`, `SameConn`, `NoMemory`.
    pub fn connect<P: Profile>(
        &mut self,
        lengths: Lengths,
        settings: &MasterSettings<'_, P>,
    ) -> Result<Connection, Refused> {
        let set = settings.in_c(lengths.master, lengths.slave);
        let app = settings.app.bytes();
        let mut number = 0;
        // SAFETY: the handle has a controller, the slice is valid, and the two that are written to are separate.
        answered(unsafe {
            let handle = &mut self.lent.handle;
            ffi::gp_controller_connect(handle, &set, app.as_ptr(), app.len(), &mut number)
        })?;
        Ok(Connection(numbered(number)))
    }

    /// Adds a block with these inputs. What is wrong with its wires, `start` finds. Refused by `TooMany`, then
    /// `NoMemory`.
    pub fn block(&mut self, kind: Kind, inputs: &[Wire]) -> Result<Block, Refused> {
        let mut wires = [net::NO_WIRE; net::MOST_INPUTS];
        let wires = wires.get_mut(..inputs.len()).ok_or(Refused::TooMany)?;
        for (wire, input) in wires.iter_mut().zip(inputs) {
            *wire = input.in_c();
        }
        let (kind, n) = kind.in_c();
        let mut number = 0;
        // SAFETY: as in `connect`.
        answered(unsafe {
            let handle = &mut self.lent.handle;
            ffi::gp_controller_block(handle, kind, n, wires.as_ptr(), wires.len(), &mut number)
        })?;
        Ok(Block(numbered(number)))
    }

    /// Has this output bit set to what the wire reads, in each cycle. An output bit without a drive is 0. Refused by
    /// `TooMany`, then `NoMemory`.
    pub fn drive(&mut self, output: Bit, from: Wire) -> Result<(), Refused> {
        // SAFETY: as in `connect`.
        answered(unsafe {
            ffi::gp_controller_drive(&mut self.lent.handle, &output.in_c(), &from.in_c())
        })
    }

    /// Makes the net of these blocks and drives, and runs its first cycle. If the net has a fault, the first one is
    /// told, and the plan is dropped: make it anew.
    pub fn start(mut self) -> Result<Controller<'m>, Fault> {
        let mut fault = net::NO_FAULT;
        // SAFETY: as in `connect`.
        match unsafe { ffi::gp_controller_start(&mut self.lent.handle, &mut fault) } {
            OK => Ok(Controller {
                lent: self.lent,
                out: NO_FRAME,
                did: NOTHING,
            }),
            answer => Err(Fault::of(answer, &fault)),
        }
    }
}

/// The number of a connection or a block that was added.
fn numbered(number: u16) -> NonZeroU16 {
    NonZeroU16::new(number).unwrap_or_else(|| other_archive(OK))
}

/// A controller that runs: the masters of its connections, and the net of its blocks.
///
/// In a cycle the net reads the inputs of all connections and sets their outputs. There is one at the start, in each
/// tick and reset, and in each delivery whose frame was taken or ended the session. An output leaves with the next data
/// frame of its connection. Inputs are zeros in each state but Data, so let 0 mean stop. Before the first tick ask
/// [`guards`](Controller::guards) of each output that moves something and each stop that has to stop it, and don't run
/// if one answer is false.
///
/// For each millisecond that passed call [`tick`](Controller::tick), and then [`ticked`](Controller::ticked) for each
/// connection; hand each frame that came to [`deliver`](Controller::deliver). After each of these steps send its frame,
/// and give a fresh session id if it ended the session. A call with a connection that isn't there is refused by
/// `NoConnection`, whatever else is wrong.
pub struct Controller<'m> {
    lent: Lent<'m>,
    out: Frame,
    did: Did,
}

impl Controller<'_> {
    /// Returns the last step again, of whichever connection.
    pub fn last_step(&self) -> Step<'_> {
        Step {
            out: &self.out,
            did: &self.did,
        }
    }

    /// Delivers a frame of the slave of this connection: any bytes, of any number. The step has the frame to send to
    /// this slave. Other connections are changed only by the cycle.
    pub fn deliver(&mut self, to: Connection, frame: &[u8]) -> Result<Step<'_>, Refused> {
        // SAFETY: the handle has a controller, the slice is valid, and what is written to are three separate fields.
        answered(unsafe {
            ffi::gp_controller_deliver(
                &mut self.lent.handle,
                to.number(),
                frame.as_ptr(),
                frame.len(),
                &mut self.out,
                &mut self.did,
            )
        })?;
        Ok(self.last_step())
    }

    /// Counts a tick at all connections in order, and then runs a cycle. Only these cycles count time for blocks.
    pub fn tick(&mut self) {
        // SAFETY: as in `deliver`.
        done(unsafe { ffi::gp_controller_tick(&mut self.lent.handle) });
    }

    /// Tells what the last tick did at this connection. Before the first tick that is nothing. Ask for each connection
    /// after each tick.
    pub fn ticked(&mut self, at: Connection) -> Result<Step<'_>, Refused> {
        let (handle, out, did) = (&mut self.lent.handle, &mut self.out, &mut self.did);
        // SAFETY: as in `deliver`.
        answered(unsafe { ffi::gp_controller_ticked(handle, at.number(), out, did) })?;
        Ok(self.last_step())
    }

    /// Ends the session of this connection, if there is one, and runs a cycle. The step has the Reset frame to send.
    pub fn reset(&mut self, at: Connection) -> Result<Step<'_>, Refused> {
        let (handle, out, did) = (&mut self.lent.handle, &mut self.out, &mut self.did);
        // SAFETY: as in `deliver`.
        answered(unsafe { ffi::gp_controller_reset(handle, at.number(), out, did) })?;
        Ok(self.last_step())
    }

    /// Switches fail-safe data of this connection (zeros in place of what the net sets) on or off. It outlasts resets.
    pub fn hold(&mut self, at: Connection, failsafe: bool) -> Result<(), Refused> {
        // SAFETY: as in `deliver`.
        answered(unsafe { ffi::gp_controller_hold(&mut self.lent.handle, at.number(), failsafe) })
    }

    /// Sets the session id of all sessions of this connection whose first Session frame is sent after this call. It
    /// outlasts resets: give a fresh one after each. [`Step::used_id`] is always false here: nothing shows that an id
    /// comes again. Refused by `BadNonce`.
    pub fn nonce(&mut self, at: Connection, id: u32) -> Result<(), Refused> {
        // SAFETY: as in `deliver`.
        answered(unsafe { ffi::gp_controller_nonce(&mut self.lent.handle, at.number(), id) })
    }

    /// How many connections there are.
    pub fn connections(&mut self) -> u16 {
        let mut count = 0;
        // SAFETY: as in `deliver`.
        done(unsafe { ffi::gp_controller_connections(&mut self.lent.handle, &mut count) });
        count
    }

    /// The state of this connection's master.
    pub fn state(&mut self, at: Connection) -> Result<State, Refused> {
        self.flag(at, ffi::gp_controller_state).map(state)
    }

    /// Reads the data received from the slave of this connection: those of the last frame taken. They are zeros in
    /// every state but Data, after a FailSafeData frame, and from the tick at which the watchdog expires. Refused by
    /// `BadLength` unless `inputs` has as many bytes as the slave sends.
    pub fn inputs(&mut self, at: Connection, inputs: &mut [u8]) -> Result<(), Refused> {
        let (handle, len) = (&mut self.lent.handle, inputs.len());
        // SAFETY: as in `deliver`.
        answered(unsafe {
            ffi::gp_controller_inputs(handle, at.number(), inputs.as_mut_ptr(), len)
        })
    }

    /// Reads what the last cycle set the outputs of this connection to. Refused by `BadLength` unless `offer` has as
    /// many bytes as the controller sends.
    pub fn offer(&mut self, at: Connection, offer: &mut [u8]) -> Result<(), Refused> {
        let (handle, len) = (&mut self.lent.handle, offer.len());
        // SAFETY: as in `deliver`.
        answered(unsafe { ffi::gp_controller_offer(handle, at.number(), offer.as_mut_ptr(), len) })
    }

    /// The terms of this connection's session, only in state Data.
    pub fn terms(&mut self, at: Connection) -> Result<Option<Terms>, Refused> {
        let (handle, mut terms) = (&mut self.lent.handle, NO_TERMS);
        // SAFETY: as in `deliver`.
        match unsafe { ffi::gp_controller_terms(handle, at.number(), &mut terms) } {
            NOT_IN_DATA => Ok(None),
            answer => answered(answer).map(|()| Some(Terms::of(&terms))),
        }
    }

    /// The ticks since a frame was sent to this connection; one less than the watchdog if none was sent yet.
    pub fn age(&mut self, at: Connection) -> Result<u16, Refused> {
        let mut age = 0;
        // SAFETY: as in `deliver`.
        answered(unsafe { ffi::gp_controller_age(&mut self.lent.handle, at.number(), &mut age) })?;
        Ok(age)
    }

    /// Whether fail-safe data of this connection are on.
    pub fn held(&mut self, at: Connection) -> Result<bool, Refused> {
        self.flag(at, ffi::gp_controller_held).map(|held| held != 0)
    }

    /// Whether a cycle of the last call changed the offer of this connection: of the start, a deliver, a tick or a
    /// reset. A hold or a nonce runs none.
    pub fn changed(&mut self, at: Connection) -> Result<bool, Refused> {
        self.flag(at, ffi::gp_controller_changed)
            .map(|changed| changed != 0)
    }

    /// The counts of this connection.
    pub fn counts(&mut self, at: Connection) -> Result<Counts, Refused> {
        let mut counts = Counts::default();
        // SAFETY: as in `deliver`.
        answered(unsafe {
            ffi::gp_controller_counts(&mut self.lent.handle, at.number(), &mut counts)
        })?;
        Ok(counts)
    }

    /// Makes the counts of this connection zeros, and changes nothing else.
    pub fn clear_counts(&mut self, at: Connection) -> Result<(), Refused> {
        // SAFETY: as in `deliver`.
        answered(unsafe { ffi::gp_controller_clear_counts(&mut self.lent.handle, at.number()) })
    }

    /// The value of this block in the last cycle. Refused by `NoBlock`.
    pub fn value(&mut self, of: Block) -> Result<bool, Refused> {
        let mut value = 0;
        // SAFETY: as in `deliver`.
        answered(unsafe {
            ffi::gp_controller_value(&mut self.lent.handle, of.number(), &mut value)
        })?;
        Ok(value != 0)
    }

    /// True: this output bit is 0 after each cycle in which this input bit is 0, by the blocks on its way, or no drive
    /// sets it. False doesn't say that it isn't. Refused by `NoOutput` and `NoInput`.
    pub fn guards(&mut self, output: Bit, input: Bit) -> Result<bool, Refused> {
        let (handle, mut guards) = (&mut self.lent.handle, 0);
        // SAFETY: as in `deliver`.
        answered(unsafe {
            ffi::gp_controller_guards(handle, &output.in_c(), &input.in_c(), &mut guards)
        })?;
        Ok(guards != 0)
    }

    /// Reads a byte of a connection by such a call.
    fn flag(
        &mut self,
        at: Connection,
        read: unsafe extern "C" fn(*mut Handle, u16, *mut u8) -> u8,
    ) -> Result<u8, Refused> {
        let mut flag = 0;
        // SAFETY: as in `deliver`: a reader writes to the handle's memory and to `flag`.
        answered(unsafe { read(&mut self.lent.handle, at.number(), &mut flag) })?;
        Ok(flag)
    }
}

/// What doesn't compile: the use of a region that a controller lies in,
///
/// ```compile_fail,E0505
/// # use gatepast::{ControllerMemory, Most, Plan, Unit};
/// # let most = Most { connections: 0, blocks: 0, drives: 0 };
/// let (mut memory, mut region) = (ControllerMemory::new(), [Unit::EMPTY; 9]);
/// let plan = Plan::open(&mut memory, &mut region, most).unwrap();
/// drop(region);
/// let _ = plan.start();
/// ```
///
/// a change of a plan whose controller runs,
///
/// ```compile_fail,E0382
/// # use gatepast::{Kind, Plan};
/// # fn f(mut plan: Plan<'_>) {
/// let mut controller = plan.start().unwrap();
/// let _ = plan.block(Kind::Const1, &[]);
/// # }
/// ```
///
/// and a controller that two threads see at once.
///
/// ```compile_fail,E0277
/// fn is_sync<T: Sync>() {}
/// is_sync::<gatepast::Controller<'static>>();
/// ```
#[cfg(doctest)]
pub struct WrongCalls;
