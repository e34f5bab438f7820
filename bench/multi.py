"""Builds a program that runs a master of many connections, over the proved crates, and prints where it stands.

    multi.py FOLDER

The program takes the number of connections, a number of exchanges of the first one with its slave, and a number of ticks after them. All
frames have lengths 2 and 2, the application gives each connection its inputs back, and no watchdog expires but in the first tick.
"""
import sys

import program

USES = ["fsoe_base", "param_load", "fb_net", "slave_core", "multi_master"]

PROGRAM = """//! Runs a master of many connections.
#![tactic(auto)]

use fb_net::Mirror;
use fsoe_base::{Did, FrameBuf, Lengths, State};
use multi_master::MultiMaster;
use param_load::{AppBytes, AppRule, MasterSettings, SlaveSettings};
use slave_core::Slave;
use std::alloc::AllocError;
use std::process::ExitCode;
use std::{env, io};

/// Settings of so many connections, at most 64.
fn settings_of(rt: &HostRuntime, links: u16) -> Result<Vec<MasterSettings>, AllocError> {
    let mut settings = Vec::new(rt.alloc());
    for conn in 1..65u16 {
        let lengths = Lengths::new(2, 2).unwrap();
        let own = MasterSettings::new(lengths, conn, 2, 65_535, AppBytes::new(), 1).unwrap();
        if conn <= links {
            settings.push(own)?;
        }
    }
    Ok(settings)
}

fn slave() -> Slave {
    let lengths = Lengths::new(2, 2).unwrap();
    let rule = AppRule::Any(0);
    Slave::new(SlaveSettings::new(lengths, 2, 65_535, 65_535, rule, 2).unwrap())
}

/// Ticks, if there is a place for each connection.
fn tick(multi: &mut MultiMaster<Mirror>, outs: &mut Vec<FrameBuf>, dids: &mut Vec<Did>) {
    let links = usize::from(multi.links());
    if outs.len() == links && dids.len() == links {
        multi.tick(outs.as_mut_slice(), dids.as_mut_slice());
    }
}

/// Delivers the frame to the slave, and its answer to the first connection, whose reply is the frame then.
fn exchange(multi: &mut MultiMaster<Mirror>, slave: &mut Slave, frame: &mut FrameBuf) {
    let mut answer = FrameBuf::new();
    slave.deliver(frame.bytes(), &mut answer);
    if 0 < multi.links() {
        multi.deliver(1, answer.bytes(), frame);
    }
}

/// Whether the first connection came to Data, or there were no exchanges; nothing where there is no memory.
fn run(rt: &HostRuntime, words: [u16; 3]) -> Result<Option<bool>, AllocError> {
    let [links, exchanges, ticks] = words;
    let Ok(mut multi) = MultiMaster::new(settings_of(rt, links)?, Mirror) else {
        return Ok(None);
    };
    let mut outs = Vec::new(rt.alloc());
    let mut dids = Vec::new(rt.alloc());
    for _ in 0..multi.links() {
        outs.push(FrameBuf::new())?;
        dids.push(Did::nothing())?;
    }
    tick(&mut multi, &mut outs, &mut dids);
    let mut frame = FrameBuf::new();
    if 0 < outs.len() {
        frame.set(outs[0].bytes());
    }
    let mut slave = slave();
    for _ in 0..exchanges {
        exchange(&mut multi, &mut slave, &mut frame);
    }
    for _ in 0..ticks {
        tick(&mut multi, &mut outs, &mut dids);
    }
    let in_data = 0 < multi.links() && multi.state(1) == State::Data;
    Ok(Some(exchanges == 0 || in_data))
}

/// The three words, 0 for each that is missing or no number.
fn words_of(rt: &HostRuntime) -> io::Result<[u16; 3]> {
    let mut words = [0; 3];
    let mut place = 0;
    for word in env::args(rt)?.skip(1) {
        if place < 3 {
            words[place] = word.as_str().parse::<u16>().unwrap_or(0);
            place += 1;
        }
    }
    Ok(words)
}

/// Ends with status 0 where the run came to its end as it should.
fn main(rt: HostRuntime) -> ExitCode {
    let Ok(words) = words_of(&rt) else {
        return ExitCode::from(3);
    };
    match run(&rt, words) {
        Ok(Some(good)) => ExitCode::from(if good { 0 } else { 1 }),
        Ok(None) | Err(_) => ExitCode::from(2),
    }
}
"""

program.build(sys.argv[1], "multi_bench", USES, PROGRAM, {}, ["64", "100", "100"])
