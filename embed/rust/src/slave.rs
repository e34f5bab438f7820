//! A slave.

use core::marker::PhantomData;
use core::mem::MaybeUninit;

use crate::settings::{Kind, Profile, Rule, SlaveSettings};
use crate::step::{state, State, Step, Terms, NOTHING, NO_FRAME, NO_TERMS};
use crate::{check_archive, done, ffi, is_length};

/// Memory for a slave.
#[repr(C, align(8))]
pub struct SlaveMemory([MaybeUninit<u8>; ffi::SLAVE_SIZE]);

impl SlaveMemory {
    /// Memory without a slave.
    pub const fn new() -> SlaveMemory {
        SlaveMemory([MaybeUninit::zeroed(); ffi::SLAVE_SIZE])
    }
}

impl Default for SlaveMemory {
    fn default() -> SlaveMemory {
        SlaveMemory::new()
    }
}

/// A slave whose master sends `M` safe data bytes a frame, and which itself sends `S`. Each is 1, or even and from 2 to
/// 126; an end of other lengths isn't built.
pub struct Slave<'m, P: Profile, const M: usize, const S: usize> {
    handle: ffi::Handle,
    out: ffi::Frame,
    did: ffi::Did,
    lent: PhantomData<&'m mut SlaveMemory>,
    profile: PhantomData<P>,
}

// SAFETY: the handle's memory is lent only to this value. That the library keeps nothing elsewhere, also nothing of a
// thread, is believed: the proof is of calls in one thread.
unsafe impl<P: Profile, const M: usize, const S: usize> Send for Slave<'_, P, M, S> {}

impl<'m, P: Profile, const M: usize, const S: usize> Slave<'m, P, M, S> {
    const LENGTHS: () = assert!(
        is_length(M) && is_length(S),
        "a length is 1, or even and from 2 to 126"
    );

    /// Creates a slave in this memory, in state Reset, with offer and outputs of zeros, and fail-safe data off.
    pub fn new(memory: &'m mut SlaveMemory, settings: &SlaveSettings<P>, rule: Rule<'_>) -> Self {
        let () = Self::LENGTHS;
        check_archive();
        let mut slave = Slave {
            handle: ffi::Handle {
                memory: memory.0.as_mut_ptr().cast(),
                live: false,
            },
            out: NO_FRAME,
            did: NOTHING,
            lent: PhantomData,
            profile: PhantomData,
        };
        let set = ffi::SlaveSettings {
            master_len: M as u16,
            slave_len: S as u16,
            address: settings.address,
            hand: settings.hand.get(),
            most: settings.most.get(),
            profile: P::NUMBER,
            nonce: settings.profile.nonce().into(),
            word: settings.profile.word(),
        };
        let handle = &mut slave.handle;
        // SAFETY: the handle is new, its memory is a slave's and lent for as long as it lives; the slices are valid.
        done(unsafe {
            match rule.0 {
                Kind::Any(len) => ffi::gp_slave_init(handle, &set, len),
                Kind::Exact(app) => ffi::gp_slave_init_exact(handle, &set, app.as_ptr(), app.len()),
                Kind::Ranges(low, high) => ffi::gp_slave_init_ranges(
                    handle,
                    &set,
                    low.as_ptr(),
                    low.len(),
                    high.as_ptr(),
                    high.len(),
                ),
            }
        });
        slave
    }

    /// Returns the last step again, so that you can read outputs and terms before its frame is sent.
    pub fn last_step(&self) -> Step<'_> {
        Step {
            out: &self.out,
            did: &self.did,
        }
    }

    /// Delivers a frame of the master: any bytes, of any number.
    pub fn deliver(&mut self, frame: &[u8]) -> Step<'_> {
        // SAFETY: the handle has a slave, the slice is valid, and the three that are written to are separate fields.
        done(unsafe {
            ffi::gp_slave_deliver(
                &mut self.handle,
                frame.as_ptr(),
                frame.len(),
                &mut self.out,
                &mut self.did,
            )
        });
        self.last_step()
    }

    /// Counts a tick. If the watchdog expires, the session ends, and the outputs are zeros from this call on.
    pub fn tick(&mut self) -> Step<'_> {
        // SAFETY: as in `deliver`.
        done(unsafe { ffi::gp_slave_tick(&mut self.handle, &mut self.out, &mut self.did) });
        self.last_step()
    }

    /// Ends the session, if there is one. The step has the Reset frame to send.
    pub fn reset(&mut self) -> Step<'_> {
        // SAFETY: as in `deliver`.
        done(unsafe { ffi::gp_slave_reset(&mut self.handle, &mut self.out, &mut self.did) });
        self.last_step()
    }

    /// Sets the safe data to send from now on. They outlast resets: the next session sends them again. So if old data
    /// may not come again, put zeros or hold after each reset.
    pub fn put(&mut self, load: &[u8; S]) {
        // SAFETY: as in `deliver`.
        done(unsafe { ffi::gp_slave_put(&mut self.handle, load.as_ptr(), S) });
    }

    /// Switches fail-safe data (zeros in place of what was put) on or off. It outlasts resets.
    pub fn hold(&mut self, failsafe: bool) {
        // SAFETY: as in `deliver`.
        done(unsafe { ffi::gp_slave_hold(&mut self.handle, failsafe) });
    }

    /// Sets the id of all sessions whose first Session frame is sent after this call. It outlasts resets: give a fresh
    /// one after each reset, else the next session has the same one again.
    pub fn nonce(&mut self, id: P::Nonce) {
        // SAFETY: as in `deliver`.
        done(unsafe { ffi::gp_slave_nonce(&mut self.handle, id.into()) });
    }

    /// The state.
    pub fn state(&mut self) -> State {
        let mut number = 0;
        // SAFETY: as in `deliver`.
        done(unsafe { ffi::gp_slave_state(&mut self.handle, &mut number) });
        state(number)
    }

    /// Returns the data received from the master (SafeOutputs in ETG.5100): those of the last frame taken. They are
    /// zeros in every state but Data, after a FailSafeData frame, and from the tick at which the watchdog expires.
    pub fn outputs(&mut self) -> [u8; M] {
        let mut outputs = [0; M];
        // SAFETY: as in `deliver`.
        done(unsafe { ffi::gp_slave_outputs(&mut self.handle, outputs.as_mut_ptr(), M) });
        outputs
    }

    /// What was put last, zeros at first.
    pub fn offer(&mut self) -> [u8; S] {
        let mut offer = [0; S];
        // SAFETY: as in `deliver`.
        done(unsafe { ffi::gp_slave_offer(&mut self.handle, offer.as_mut_ptr(), S) });
        offer
    }

    /// The terms of the session, only in state Data.
    pub fn terms(&mut self) -> Option<Terms> {
        let mut terms = NO_TERMS;
        // SAFETY: as in `deliver`.
        match unsafe { ffi::gp_slave_terms(&mut self.handle, &mut terms) } {
            ffi::NOT_IN_DATA => None,
            answer => {
                done(answer);
                Some(Terms::of(&terms))
            }
        }
    }

    /// The ticks since the last frame was sent, 0 in state Reset.
    pub fn age(&mut self) -> u16 {
        let mut age = 0;
        // SAFETY: as in `deliver`.
        done(unsafe { ffi::gp_slave_age(&mut self.handle, &mut age) });
        age
    }

    /// Whether fail-safe data are on.
    pub fn held(&mut self) -> bool {
        let mut held = 0;
        // SAFETY: as in `deliver`.
        done(unsafe { ffi::gp_slave_held(&mut self.handle, &mut held) });
        held != 0
    }
}

impl<P: Profile, const M: usize, const S: usize> Drop for Slave<'_, P, M, S> {
    fn drop(&mut self) {
        // SAFETY: the handle is the library's since `new`.
        let _none = unsafe { ffi::gp_slave_end(&mut self.handle) };
    }
}
