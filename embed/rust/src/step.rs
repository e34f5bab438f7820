//! What steps of an end do, and what is read of an end.

use crate::ffi;

/// What a frame is for.
#[derive(Clone, Copy, Debug, PartialEq, Eq)]
pub enum Command {
    /// It ends sessions, and leads to a new one.
    Reset,
    /// It carries a piece of a session id.
    Session,
    /// It carries a piece of the connection id and the address.
    Connection,
    /// It carries a piece of the parameters.
    Parameter,
    /// It carries process data.
    ProcessData,
    /// It carries zeros in place of process data.
    FailSafeData,
}

/// The state of an end, in the order of a session.
#[derive(Clone, Copy, Debug, PartialEq, Eq, PartialOrd, Ord)]
pub enum State {
    /// There is no session.
    Reset,
    /// The session id is on its way.
    Session,
    /// The connection id and the address are on their way.
    Connection,
    /// The parameters are on their way.
    Parameter,
    /// Data are exchanged. In every other state all outputs are zeros, and in this one after a FailSafeData frame.
    Data,
}

/// The code of a reset, 0 to 0Bh, or the peer's own above. `docs/duties.md` says what to do at each.
#[derive(Clone, Copy, Debug, PartialEq, Eq)]
pub struct Code(pub u8);

impl Code {
    /// A local reset, an answer to a reset, or a master that starts.
    pub const LOCAL_RESET: Code = Code(0);
    /// The watchdog expired.
    pub const WATCHDOG_EXPIRED: Code = Code(5);
}

/// Why an end went to state Reset.
#[derive(Clone, Copy, Debug, PartialEq, Eq)]
pub enum Cause {
    /// `reset` was called.
    Local,
    /// Its peer sent a Reset frame with this code.
    Peer(Code),
    /// It found a fault.
    Found(Code),
}

/// Why a frame was dropped without an answer.
#[derive(Clone, Copy, Debug, PartialEq, Eq)]
pub enum Dropped {
    /// Its length isn't that of the peer's frames.
    Length,
    /// It equals the last frame taken: it was sent again, and all is well.
    Repeat,
    /// It fails a test in state Reset.
    InReset,
}

/// A frame that an end took.
#[derive(Clone, Copy, Debug, PartialEq, Eq)]
pub struct Took<'a> {
    /// Its command.
    pub command: Command,
    /// Its safe data.
    pub load: &'a [u8],
}

/// What a step did, with the frame to send.
#[must_use = "a step may have a frame to send, and may have ended the session"]
#[derive(Clone, Copy)]
pub struct Step<'a> {
    pub(crate) out: &'a ffi::Frame,
    pub(crate) did: &'a ffi::Did,
}

impl Cause {
    /// The code of the reset.
    pub fn code(self) -> Code {
        match self {
            Cause::Local => Code::LOCAL_RESET,
            Cause::Peer(code) | Cause::Found(code) => code,
        }
    }
}

pub(crate) const NO_FRAME: ffi::Frame = ffi::Frame {
    len: 0,
    bytes: [0; 255],
};

pub(crate) const NOTHING: ffi::Did = ffi::Did {
    took: 0,
    passed: 0,
    sent: 0,
    reset: 0,
    code: 0,
    dropped: 0,
    load_len: 0,
    load: [0; 126],
    used: 0,
};

pub(crate) fn bytes_of(frame: &ffi::Frame) -> &[u8] {
    &frame.bytes[..frame.len.min(frame.bytes.len())]
}

pub(crate) fn took(did: &ffi::Did) -> Option<Took<'_>> {
    let command = match did.took {
        0x2A => Command::Reset,
        0x4E => Command::Session,
        0x64 => Command::Connection,
        0x52 => Command::Parameter,
        0x36 => Command::ProcessData,
        0x08 => Command::FailSafeData,
        _ => return None,
    };
    Some(Took {
        command,
        load: &did.load[..usize::from(did.load_len).min(did.load.len())],
    })
}

pub(crate) fn reset(did: &ffi::Did) -> Option<Cause> {
    match did.reset {
        1 => Some(Cause::Local),
        2 => Some(Cause::Peer(Code(did.code))),
        3 => Some(Cause::Found(Code(did.code))),
        _ => None,
    }
}

pub(crate) fn dropped(did: &ffi::Did) -> Option<Dropped> {
    match did.dropped {
        1 => Some(Dropped::Length),
        2 => Some(Dropped::Repeat),
        3 => Some(Dropped::InReset),
        _ => None,
    }
}

pub(crate) fn state(number: u8) -> State {
    match number {
        1 => State::Session,
        2 => State::Connection,
        3 => State::Parameter,
        4 => State::Data,
        _ => State::Reset,
    }
}

impl<'a> Step<'a> {
    /// The frame to send, and to send again until a step has the next one.
    pub fn send(&self) -> Option<&'a [u8]> {
        (self.out.len != 0).then(|| bytes_of(self.out))
    }

    /// The frame that was taken.
    pub fn took(&self) -> Option<Took<'a>> {
        took(self.did)
    }

    /// Why the end went to state Reset.
    pub fn reset(&self) -> Option<Cause> {
        reset(self.did)
    }

    /// Why a frame was dropped.
    pub fn dropped(&self) -> Option<Dropped> {
        dropped(self.did)
    }

    /// Whether a frame that is no Reset frame passed its CRC test.
    pub fn passed(&self) -> bool {
        self.did.passed != 0
    }

    /// Whether a session begins with this step that has the id of the session before it at this end: no fresh id was
    /// set.
    pub fn used_id(&self) -> bool {
        self.did.used != 0
    }
}

/// What the ends of a session agreed on.
#[derive(Clone, Copy, Debug, PartialEq, Eq)]
pub struct Terms {
    /// The connection id.
    pub conn: u16,
    /// The slave's address.
    pub address: u16,
    /// The watchdog in ticks.
    pub watchdog: u16,
    /// The profile word; None in profile One.
    pub word: Option<u16>,
    app_len: u16,
    app: [u8; 512],
}

pub(crate) const NO_TERMS: ffi::Terms = ffi::Terms {
    conn: 0,
    address: 0,
    watchdog: 0,
    word: 0,
    app_len: 0,
    profile: 0,
    app: [0; 512],
};

impl Terms {
    pub(crate) fn of(terms: &ffi::Terms) -> Terms {
        Terms {
            conn: terms.conn,
            address: terms.address,
            watchdog: terms.watchdog,
            word: (terms.profile == 2).then_some(terms.word),
            app_len: terms.app_len,
            app: terms.app,
        }
    }

    /// The application parameters.
    pub fn app(&self) -> &[u8] {
        &self.app[..usize::from(self.app_len).min(self.app.len())]
    }
}
