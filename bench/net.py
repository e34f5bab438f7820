"""Builds a program that runs cycles of the largest net, over the proved crates, and prints where it stands.

    net.py FOLDER

The net has 256 blocks of all kinds, each of which reads input bits or the block before it, and 1,024 drives, one for each
output bit of 64 connections with images of 2 bytes. The program takes the number of cycles, and turns an input bit in each.
"""
import sys

import program

BELOW = ["fsoe_base", "failsafe_io", "fb_lib", "fb_net"]

PROGRAM = """//! Runs cycles of the largest net.
#![tactic(auto)]

ghost use Rattle.std.specs.Prelude.{◌≤◌, IfOk, vec_len};
ghost use Rattle.std.specs.List.{All};
ghost use Rattle.fb_net.specs.New.{IsNew};

use failsafe_io::{Application, Bit};
use fb_lib::BlockKind;
use fb_net::{BlockSpec, Drive, Net, Wire, Wires};
use fsoe_base::Image;
use std::alloc::AllocError;
use std::process::ExitCode;
use std::{env, io};

/// The kind of this block, and how many inputs it reads.
fn kind_of(number: u16) -> (BlockKind, u16) {
    match number % 10 {
        0 => (BlockKind::And, 8),
        1 => (BlockKind::Or, 8),
        2 => (BlockKind::Latch, 2),
        3 => (BlockKind::Estop, 2),
        4 => (BlockKind::TwoHand, 2),
        5 => (BlockKind::OnDelay, 1),
        6 => (BlockKind::OffDelay, 1),
        7 => (BlockKind::Feedback, 2),
        8 => (BlockKind::Const1, 0),
        _ => (BlockKind::Const0, 0),
    }
}

/// The block before this one, or an input bit.
fn wire_of(number: u16, place: u16) -> Wire {
    if place == 0 && 1 < number {
        return Wire::Block(number - 1);
    }
    Wire::Input(Bit {
        link: 1 + number % 64,
        bit: place,
    })
}

/// The blocks of the net, as they are before their first cycle.
fn blocks_of(rt: &HostRuntime) -> Result<Vec<BlockSpec>, AllocError>
    ensures most { IfOk result (λ blocks. vec_len blocks ≤ 256) }
    ensures new { IfOk result (λ blocks. All IsNew blocks.items) }
{
    let mut blocks = Vec::new(rt.alloc());
    for number in 1..257u16 {
        let (kind, inputs) = kind_of(number);
        let mut wires = Vec::new(rt.alloc());
        for place in 0..inputs {
            wires.push(wire_of(number, place))?;
        }
        blocks.push(BlockSpec::new(kind, 3, Wires::new(wires)))?;
    }
    Ok(blocks)
}

/// A drive of each output bit.
fn drives_of(rt: &HostRuntime) -> Result<Vec<Drive>, AllocError> {
    let mut drives = Vec::new(rt.alloc());
    for number in 0..1024u16 {
        drives.push(Drive {
            out: Bit {
                link: 1 + number / 16,
                bit: number % 16,
            },
            from: Wire::Block(1 + number % 256),
        })?;
    }
    Ok(drives)
}

/// An image of zeros for each connection.
fn images_of(rt: &HostRuntime) -> Result<Vec<Image>, AllocError> {
    let mut images = Vec::new(rt.alloc());
    for _ in 0..64 {
        images.push(Image::zeros(2))?;
    }
    Ok(images)
}

/// The number of cycles: the last word, or 0.
fn cycles_of(rt: &HostRuntime) -> io::Result<u16> {
    let mut cycles = 0;
    for word in env::args(rt)?.skip(1) {
        cycles = word.as_str().parse::<u16>().unwrap_or(0);
    }
    Ok(cycles)
}

/// Runs the cycles, and tells whether an output bit was 1 after one of them; nothing where there is no memory or the net has a fault.
fn run(rt: &HostRuntime, cycles: u16) -> Result<Option<bool>, AllocError> {
    let blocks = blocks_of(rt)?;
    let drives = drives_of(rt)?;
    let mut inputs = images_of(rt)?;
    let mut outputs = images_of(rt)?;
    let lens = [2; 64];
    let Ok(mut net) = Net::new(blocks, drives, &lens, &lens) else {
        return Ok(None);
    };
    let mut any = false;
    for cycle in 0..cycles {
        let place = usize::from(cycle % 64);
        if place < inputs.len() {
            inputs[place].set(&[(cycle % 256) as u8, 0]);
        }
        net.cycle(true, inputs.as_slice(), outputs.as_mut_slice());
        any = any || outputs.as_slice().iter().any(|image| image.bytes() != [0, 0].as_slice());
    }
    Ok(Some(any))
}

/// Ends with status 0 where some output bit was 1.
fn main(rt: HostRuntime) -> ExitCode {
    let Ok(cycles) = cycles_of(&rt) else {
        return ExitCode::from(3);
    };
    match run(&rt, cycles) {
        Ok(Some(any)) => ExitCode::from(if any { 0 } else { 1 }),
        Ok(None) | Err(_) => ExitCode::from(2),
    }
}
"""

# The proof of the loop over the blocks: what it keeps, and that it does.
INVARIANTS = """use Rattle.std.proofs.Common.{◌≡◌, ◌+◌, length}
use Rattle.std.specs.List.{All}
use Rattle.fb_net.specs.New.{IsNew}
use Rattle.net_bench.proofs.blocks_of.Given as goal

abbrev pub invariant-loop-number : goal.invariant-loop-number
invariant-loop-number l = (length l.blocks.items + 1 ≡ l.number) × All IsNew l.blocks.items
"""

ANSWERS = """use Rattle.std.proofs.Common.{arith, ap, length, length-append}
use Rattle.std.proofs.lemmas.List.Elements.{All-push}
use Rattle.fb_net.specs.New.{IsNew}
use Rattle.net_bench.proofs.blocks_of.Goals as goal

pub loop-number-preserved : goal.loop-number-preserved
loop-number-preserved c =
    let pushed = All-push IsNew _ _ c.loop-number.invariant.1 c.new-in-loop-number.ensures.new in
    let count = simp length-append at (ap length c.in_ok-push-2.ensures.items) in
    (omega (arith, count), rw c.in_ok-push-2.ensures.items pushed)
"""


program.build(
    sys.argv[1],
    "net_bench",
    BELOW,
    PROGRAM,
    {"blocks_of/Invariants": INVARIANTS, "blocks_of/Answers": ANSWERS},
    ["100"],
)
