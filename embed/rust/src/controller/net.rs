//! What a net is made of.

use core::num::NonZeroU16;

use super::ffi;
use crate::other_archive;

pub(super) const MOST_INPUTS: usize = 8;

pub(super) const NO_WIRE: ffi::Wire = ffi::Wire {
    connection: 0,
    number: 0,
};

pub(super) const NO_FAULT: ffi::Fault = ffi::Fault {
    block: 0,
    connection: 0,
    bit: 0,
};

/// The number of a connection, from 1.
#[derive(Clone, Copy, Debug, PartialEq, Eq)]
pub struct Connection(pub NonZeroU16);

/// The number of a block, from 1.
#[derive(Clone, Copy, Debug, PartialEq, Eq)]
pub struct Block(pub NonZeroU16);

/// A bit of the safe data that a connection receives, or sends.
#[derive(Clone, Copy, Debug, PartialEq, Eq)]
pub struct Bit {
    /// The connection.
    pub connection: Connection,
    /// The number of the bit, counted from 0 at the lowest one of the first byte.
    pub bit: u16,
}

/// What a block's input or a drive reads.
#[derive(Clone, Copy, Debug, PartialEq, Eq)]
pub enum Wire {
    /// The value of this block, which comes before the block that reads it.
    Block(Block),
    /// A bit that a connection receives.
    Input(Bit),
}

/// A kind of block, with its inputs in order. A number is one of ticks, which are cycles of
/// [`Controller::tick`](super::Controller::tick). `docs/protocol.md` has each step by step.
#[derive(Clone, Copy, Debug, PartialEq, Eq)]
pub enum Kind {
    /// No input: 0.
    Const0,
    /// No input: 1.
    Const1,
    /// 1 to 8 inputs: 1 if all are.
    And,
    /// 1 to 8 inputs: 1 if one is.
    Or,
    /// Set, enable: 1 from a cycle with set on, while enable is 1.
    Latch,
    /// Input, acknowledgement: 1 from a rise of the acknowledgement on, while the input is 1.
    Estop,
    /// Two buttons: 1 while both are pressed, if neither was before, and then one alone for at most so many ticks.
    TwoHand(u16),
    /// One input: 1 if it has been 1 for so many ticks.
    OnDelay(u16),
    /// One input: 1 if it is, and until the tick of this number after.
    OffDelay(u16),
    /// Command, feedback (1 while the contactor is released): the command, but 0 if the contactor didn't follow for
    /// more than so many ticks, until it is released without a command.
    Feedback(u16),
}

/// The first fault of a net: of the blocks in order, each first by its number of inputs and then wire by wire, and then
/// of the drives in order, each by its bit and then its wire.
#[derive(Clone, Copy, Debug, PartialEq, Eq)]
pub enum Fault {
    /// This block may not have so many inputs.
    Arity(Block),
    /// A wire of this block reads this block, a later one, or one that isn't there. None stands for a drive.
    Later(Option<Block>),
    /// A wire reads this bit, which no connection receives.
    NoInput(Bit),
    /// A drive sets this bit, which no connection sends.
    NoOutput(Bit),
    /// Two drives set this bit.
    Twice(Bit),
}

impl Connection {
    /// A bit of this connection.
    pub const fn bit(self, bit: u16) -> Bit {
        Bit {
            connection: self,
            bit,
        }
    }

    pub(super) fn number(self) -> u16 {
        self.0.get()
    }
}

impl Block {
    pub(super) fn number(self) -> u16 {
        self.0.get()
    }
}

impl Bit {
    pub(super) fn in_c(self) -> ffi::Bit {
        ffi::Bit {
            connection: self.connection.number(),
            bit: self.bit,
        }
    }
}

impl Wire {
    pub(super) fn in_c(self) -> ffi::Wire {
        let (connection, number) = match self {
            Wire::Block(block) => (0, block.number()),
            Wire::Input(input) => (input.connection.number(), input.bit),
        };
        ffi::Wire { connection, number }
    }
}

impl Kind {
    /// The number of the kind, and of its ticks.
    pub(super) fn in_c(self) -> (u8, u16) {
        match self {
            Kind::Const0 => (0, 0),
            Kind::Const1 => (1, 0),
            Kind::And => (2, 0),
            Kind::Or => (3, 0),
            Kind::Latch => (4, 0),
            Kind::Estop => (5, 0),
            Kind::TwoHand(n) => (6, n),
            Kind::OnDelay(n) => (7, n),
            Kind::OffDelay(n) => (8, n),
            Kind::Feedback(n) => (9, n),
        }
    }
}

impl Fault {
    /// The fault that the start answered by this number, and its place.
    pub(super) fn of(answer: u8, at: &ffi::Fault) -> Fault {
        let block = NonZeroU16::new(at.block).map(Block);
        let bit = NonZeroU16::new(at.connection).map(|k| Connection(k).bit(at.bit));
        let fault = match answer {
            28 => block.map(Fault::Arity),
            29 => Some(Fault::Later(block)),
            30 => bit.map(Fault::NoInput),
            31 => bit.map(Fault::NoOutput),
            32 => bit.map(Fault::Twice),
            _ => None,
        };
        fault.unwrap_or_else(|| other_archive(answer))
    }
}
