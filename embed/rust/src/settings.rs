//! The settings of the ends.

use core::num::NonZeroU16;

use crate::ffi;

/// A profile of parameters: [`One`] or [`Two`].
pub trait Profile: Copy + private::Sealed {
    /// A session id.
    type Nonce: Copy + Into<u32>;

    /// The number of the profile.
    const NUMBER: u16;

    /// The session id of the sessions that begin before another one is set.
    fn nonce(self) -> Self::Nonce;

    /// The profile word.
    fn word(self) -> u16;
}

mod private {
    pub trait Sealed {}
    impl Sealed for super::One {}
    impl Sealed for super::Two {}
}

/// Profile One: session ids have 16 bits, and the one communication parameter is the watchdog.
#[derive(Clone, Copy, Debug, PartialEq, Eq)]
pub struct One {
    /// The id of the first session: give a fresh one.
    pub nonce: u16,
}

/// Profile Two: session ids have 32 bits, and the communication parameters are the watchdog and a word.
#[derive(Clone, Copy, Debug, PartialEq, Eq)]
pub struct Two {
    /// The id of the first session: give a fresh one.
    pub nonce: u32,
    /// The profile word, equal at both ends.
    pub word: u16,
}

impl Profile for One {
    type Nonce = u16;
    const NUMBER: u16 = 1;

    fn nonce(self) -> u16 {
        self.nonce
    }

    fn word(self) -> u16 {
        0
    }
}

impl Profile for Two {
    type Nonce = u32;
    const NUMBER: u16 = 2;

    fn nonce(self) -> u32 {
        self.nonce
    }

    fn word(self) -> u16 {
        self.word
    }
}

/// The settings of a slave. Times are in ticks.
#[derive(Clone, Copy, Debug)]
pub struct SlaveSettings<P> {
    /// The slave's address.
    pub address: u16,
    /// The handshake timeout, until the master's watchdog is known: n ends the session in the n-th tick after this
    /// slave sent its last frame.
    pub hand: NonZeroU16,
    /// The longest watchdog that is accepted from a master. Old data may stay on for nearly twice as long.
    pub most: NonZeroU16,
    /// The profile, with the first session id.
    pub profile: P,
}

/// The settings of a master. Times are in ticks.
#[derive(Clone, Copy, Debug)]
pub struct MasterSettings<'a, P> {
    /// The connection id.
    pub conn: NonZeroU16,
    /// The slave's address.
    pub address: u16,
    /// The watchdog at both ends: n ends the session in the n-th tick after that end sent its last frame.
    pub watchdog: NonZeroU16,
    /// The application parameters, which the slave's rule has to allow.
    pub app: App<'a>,
    /// The profile, with the first session id.
    pub profile: P,
}

impl<P: Profile> MasterSettings<'_, P> {
    pub(crate) fn in_c(&self, master_len: u16, slave_len: u16) -> ffi::MasterSettings {
        ffi::MasterSettings {
            master_len,
            slave_len,
            conn: self.conn.get(),
            address: self.address,
            watchdog: self.watchdog.get(),
            profile: P::NUMBER,
            nonce: self.profile.nonce().into(),
            word: self.profile.word(),
        }
    }
}

/// Application parameters: at most 512 bytes that the application gives a meaning.
#[derive(Clone, Copy, Debug, PartialEq, Eq)]
pub struct App<'a>(&'a [u8]);

impl<'a> App<'a> {
    /// No application parameters.
    pub const NONE: App<'static> = App(&[]);

    /// These bytes, or None if they are more than 512.
    pub const fn new(bytes: &'a [u8]) -> Option<App<'a>> {
        if bytes.len() <= 512 {
            Some(App(bytes))
        } else {
            None
        }
    }

    /// The bytes.
    pub const fn bytes(&self) -> &'a [u8] {
        self.0
    }
}

/// Which application parameters a slave accepts.
#[derive(Clone, Copy, Debug)]
pub struct Rule<'a>(pub(crate) Kind<'a>);

#[derive(Clone, Copy, Debug)]
pub(crate) enum Kind<'a> {
    Any(u16),
    Exact(&'a [u8]),
    Ranges(&'a [u8], &'a [u8]),
}

impl<'a> Rule<'a> {
    /// Any bytes of this number, at most 512.
    pub const fn any<const N: u16>() -> Rule<'static> {
        const { assert!(N <= 512, "application parameters have at most 512 bytes") };
        Rule(Kind::Any(N))
    }

    /// Only these bytes.
    pub const fn exact(app: App<'a>) -> Rule<'a> {
        Rule(Kind::Exact(app.0))
    }

    /// As many bytes as `low` and `high` have, each from `low` to `high` at its place. None if these don't match.
    pub fn ranges(low: App<'a>, high: App<'a>) -> Option<Rule<'a>> {
        let matched =
            low.0.len() == high.0.len() && low.0.iter().zip(high.0).all(|(low, high)| low <= high);
        matched.then_some(Rule(Kind::Ranges(low.0, high.0)))
    }
}
