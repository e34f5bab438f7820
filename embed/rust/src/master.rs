//! A master.

use core::marker::PhantomData;
use core::mem::{ManuallyDrop, MaybeUninit};

use crate::settings::{MasterSettings, Profile};
use crate::step::{
    bytes_of, dropped, reset, state, took, Cause, Dropped, State, Step, Terms, Took, NOTHING,
    NO_FRAME, NO_TERMS,
};
use crate::{check_archive, done, ffi, is_length};

/// Memory for a master.
#[repr(C, align(8))]
pub struct MasterMemory([MaybeUninit<u8>; ffi::MASTER_SIZE]);

impl MasterMemory {
    /// Memory without a master.
    pub const fn new() -> MasterMemory {
        MasterMemory([MaybeUninit::zeroed(); ffi::MASTER_SIZE])
    }
}

impl Default for MasterMemory {
    fn default() -> MasterMemory {
        MasterMemory::new()
    }
}

/// A master that sends `M` safe data bytes a frame, and whose slave sends `S`. Each is 1, or even and from 2 to 126; an
/// end of other lengths isn't built.
pub struct Master<'m, P: Profile, const M: usize, const S: usize> {
    handle: ffi::Handle,
    out: ffi::Frame,
    did: ffi::Did,
    lent: PhantomData<&'m mut MasterMemory>,
    profile: PhantomData<P>,
}

// SAFETY: the handle's memory is lent only to this value. That the library keeps nothing elsewhere, also nothing of a
// thread, is believed: the proof is of calls in one thread.
unsafe impl<P: Profile, const M: usize, const S: usize> Send for Master<'_, P, M, S> {}

impl<'m, P: Profile, const M: usize, const S: usize> Master<'m, P, M, S> {
    const LENGTHS: () = assert!(
        is_length(M) && is_length(S),
        "a length is 1, or even and from 2 to 126"
    );

    /// Creates a master in this memory, in state Reset, with offer and outputs of zeros, and fail-safe data off. Its
    /// first tick sends the first frame.
    pub fn new(memory: &'m mut MasterMemory, settings: &MasterSettings<'_, P>) -> Self {
        let () = Self::LENGTHS;
        check_archive();
        let mut master = Master {
            handle: ffi::Handle {
                memory: memory.0.as_mut_ptr().cast(),
                live: false,
            },
            out: NO_FRAME,
            did: NOTHING,
            lent: PhantomData,
            profile: PhantomData,
        };
        let set = settings.in_c(M as u16, S as u16);
        let app = settings.app.bytes();
        // SAFETY: the handle is new, its memory is a master's and lent for as long as it lives; the slice is valid.
        done(unsafe { ffi::gp_master_init(&mut master.handle, &set, app.as_ptr(), app.len()) });
        master
    }

    /// Returns the last step again, so that you can read outputs before its frame is sent.
    pub fn last_step(&self) -> Step<'_> {
        Step {
            out: &self.out,
            did: &self.did,
        }
    }

    /// Makes a step that is refused while a frame is due. One is due only if a [`Due`] was forgotten: it is lost.
    fn at_rest(&mut self, mut call: impl FnMut(&mut Self) -> u8) {
        let mut answer = call(self);
        if answer == ffi::FRAME_DUE {
            // SAFETY: the handle has a master, and `out` is a field of its own.
            done(unsafe { ffi::gp_master_reply(&mut self.handle, &mut self.out) });
            answer = call(self);
        }
        done(answer);
    }

    /// Delivers a frame of the slave: any bytes, of any number. The step has the frame to send.
    pub fn deliver(&mut self, frame: &[u8]) -> Step<'_> {
        // SAFETY: the handle has a master, the slice is valid, and the three that are written to are separate fields.
        self.at_rest(|it| unsafe {
            ffi::gp_master_deliver(
                &mut it.handle,
                frame.as_ptr(),
                frame.len(),
                &mut it.out,
                &mut it.did,
            )
        });
        self.last_step()
    }

    /// Accepts a frame of the slave, so that the application can act before the next frame is built.
    pub fn accept(&mut self, frame: &[u8]) -> Accepted<'_, 'm, P, M, S> {
        // SAFETY: as in `deliver`.
        self.at_rest(|it| unsafe {
            ffi::gp_master_accept(&mut it.handle, frame.as_ptr(), frame.len(), &mut it.did)
        });
        self.out.len = 0;
        let mut due = 0;
        // SAFETY: as in `deliver`.
        done(unsafe { ffi::gp_master_due(&mut self.handle, &mut due) });
        if due != 0 {
            Accepted::Due(Due { master: self })
        } else {
            Accepted::Dropped(dropped(&self.did))
        }
    }

    /// Counts a tick. If the watchdog expires, the session ends, and the outputs are zeros from this call on.
    pub fn tick(&mut self) -> Step<'_> {
        // SAFETY: as in `deliver`.
        self.at_rest(|it| unsafe { ffi::gp_master_tick(&mut it.handle, &mut it.out, &mut it.did) });
        self.last_step()
    }

    /// Ends the session, if there is one. The step has the Reset frame to send.
    pub fn reset(&mut self) -> Step<'_> {
        // SAFETY: as in `deliver`.
        self.at_rest(|it| unsafe {
            ffi::gp_master_reset(&mut it.handle, &mut it.out, &mut it.did)
        });
        self.last_step()
    }

    /// Sets the safe data to send from now on. They outlast resets: the next session sends them again. So if old data
    /// may not come again, put zeros or hold after each reset.
    pub fn put(&mut self, load: &[u8; M]) {
        // SAFETY: as in `deliver`.
        done(unsafe { ffi::gp_master_put(&mut self.handle, load.as_ptr(), M) });
    }

    /// Switches fail-safe data (zeros in place of what was put) on or off. It outlasts resets.
    pub fn hold(&mut self, failsafe: bool) {
        // SAFETY: as in `deliver`.
        done(unsafe { ffi::gp_master_hold(&mut self.handle, failsafe) });
    }

    /// Sets the id of all sessions whose first Session frame is sent after this call. It outlasts resets: give a fresh
    /// one after each reset, else the next session has the same one again.
    pub fn nonce(&mut self, id: P::Nonce) {
        // SAFETY: as in `deliver`.
        done(unsafe { ffi::gp_master_nonce(&mut self.handle, id.into()) });
    }

    /// Returns the state. A frame that is due counts as sent.
    pub fn state(&mut self) -> State {
        let mut number = 0;
        // SAFETY: as in `deliver`.
        done(unsafe { ffi::gp_master_state(&mut self.handle, &mut number) });
        state(number)
    }

    /// Returns the data received from the slave (SafeInputs in ETG.5100): those of the last frame taken. They are
    /// zeros in every state but Data, after a FailSafeData frame, and from the tick at which the watchdog expires.
    #[doc(alias = "inputs")]
    pub fn outputs(&mut self) -> [u8; S] {
        let mut outputs = [0; S];
        // SAFETY: as in `deliver`.
        done(unsafe { ffi::gp_master_outputs(&mut self.handle, outputs.as_mut_ptr(), S) });
        outputs
    }

    /// What was put last, zeros at first.
    pub fn offer(&mut self) -> [u8; M] {
        let mut offer = [0; M];
        // SAFETY: as in `deliver`.
        done(unsafe { ffi::gp_master_offer(&mut self.handle, offer.as_mut_ptr(), M) });
        offer
    }

    /// The terms of the session, only in state Data.
    pub fn terms(&mut self) -> Option<Terms> {
        let mut terms = NO_TERMS;
        // SAFETY: as in `deliver`.
        match unsafe { ffi::gp_master_terms(&mut self.handle, &mut terms) } {
            ffi::NOT_IN_DATA => None,
            answer => {
                done(answer);
                Some(Terms::of(&terms))
            }
        }
    }

    /// The ticks since the last frame was sent; one less than the watchdog if none was sent yet.
    pub fn age(&mut self) -> u16 {
        let mut age = 0;
        // SAFETY: as in `deliver`.
        done(unsafe { ffi::gp_master_age(&mut self.handle, &mut age) });
        age
    }

    /// Whether fail-safe data are on.
    pub fn held(&mut self) -> bool {
        let mut held = 0;
        // SAFETY: as in `deliver`.
        done(unsafe { ffi::gp_master_held(&mut self.handle, &mut held) });
        held != 0
    }
}

impl<P: Profile, const M: usize, const S: usize> Drop for Master<'_, P, M, S> {
    fn drop(&mut self) {
        // SAFETY: the handle is the library's since `new`.
        let _none = unsafe { ffi::gp_master_end(&mut self.handle) };
    }
}

/// The result of [`Master::accept`].
#[must_use = "a frame may be due"]
pub enum Accepted<'a, 'm, P: Profile, const M: usize, const S: usize> {
    /// The frame was dropped for this reason; nothing is to be sent.
    Dropped(Option<Dropped>),
    /// The frame was taken or ended the session; one is due.
    Due(Due<'a, 'm, P, M, S>),
}

/// A master that owes a frame. Before [`Due::reply`] it can only be read, and given what the frame carries. If this
/// value is dropped without a reply, the frame is lost.
#[must_use = "a frame is due, which `reply` gives"]
pub struct Due<'a, 'm, P: Profile, const M: usize, const S: usize> {
    master: &'a mut Master<'m, P, M, S>,
}

impl<'a, 'm, P: Profile, const M: usize, const S: usize> Due<'a, 'm, P, M, S> {
    /// Returns the frame to send, and to send again until there is the next one. It has what was put last.
    #[must_use = "this is the frame to send"]
    pub fn reply(self) -> &'a [u8] {
        let due = ManuallyDrop::new(self);
        // SAFETY: `due` is not dropped, so that the reference is moved out of it once.
        let master = unsafe { core::ptr::read(&due.master) };
        // SAFETY: the handle has a master, and `out` is a field of its own.
        done(unsafe { ffi::gp_master_reply(&mut master.handle, &mut master.out) });
        bytes_of(&master.out)
    }

    /// The frame that was taken.
    pub fn took(&self) -> Option<Took<'_>> {
        took(&self.master.did)
    }

    /// Why the master went to state Reset.
    pub fn reset(&self) -> Option<Cause> {
        reset(&self.master.did)
    }

    /// Whether the frame that is due begins a session with the id of the session before it: give a fresh one first.
    pub fn used_id(&self) -> bool {
        self.master.did.used != 0
    }

    /// Calls [`Master::put`], also for the frame that is due.
    pub fn put(&mut self, load: &[u8; M]) {
        self.master.put(load);
    }

    /// Calls [`Master::hold`], also for the frame that is due.
    pub fn hold(&mut self, failsafe: bool) {
        self.master.hold(failsafe);
    }

    /// Calls [`Master::nonce`], also for a session that the due frame begins.
    pub fn nonce(&mut self, id: P::Nonce) {
        self.master.nonce(id);
    }

    /// As [`Master::state`].
    pub fn state(&mut self) -> State {
        self.master.state()
    }

    /// As [`Master::outputs`].
    pub fn outputs(&mut self) -> [u8; S] {
        self.master.outputs()
    }

    /// As [`Master::terms`].
    pub fn terms(&mut self) -> Option<Terms> {
        self.master.terms()
    }
}

impl<P: Profile, const M: usize, const S: usize> Drop for Due<'_, '_, P, M, S> {
    fn drop(&mut self) {
        // SAFETY: the handle has a master, and `out` is a field of its own.
        done(unsafe { ffi::gp_master_reply(&mut self.master.handle, &mut self.master.out) });
    }
}
