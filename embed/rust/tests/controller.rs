//! A controller by the wrapper.
#![cfg(feature = "controller")]

use std::collections::VecDeque;
use std::num::NonZeroU16;

use gatepast::{
    App, Bit, Block, Cause, Connection, Controller, ControllerMemory, Dropped, Fault, Kind,
    Lengths, MasterSettings, Most, One, Plan, Refused, Rule, Slave, SlaveMemory, SlaveSettings,
    State, Two, Unit, Wire,
};

const MOST: Most = Most {
    connections: 2,
    blocks: 6,
    drives: 1,
};
const LENGTHS: Lengths = Lengths {
    master: 2,
    slave: 2,
};
const STOP: Connection = Connection(number(1));
const DRIVE: Connection = Connection(number(2));
const NOWHERE: Connection = Connection(number(3));
const WATCHDOG: NonZeroU16 = number(5);

const fn number(number: u16) -> NonZeroU16 {
    match NonZeroU16::new(number) {
        Some(number) => number,
        None => panic!(),
    }
}

fn settings(conn: u16) -> MasterSettings<'static, One> {
    MasterSettings {
        conn: number(conn),
        address: 10 + conn,
        watchdog: WATCHDOG,
        app: App::NONE,
        profile: One { nonce: 1 },
    }
}

fn block(of: u16) -> Wire {
    Wire::Block(Block(number(of)))
}

fn region(units: usize) -> Vec<Unit> {
    (0..units).map(|_| Unit::EMPTY).collect()
}

/// The connections, blocks and drive of `examples/emergency_stop.toml`.
fn emergency_stop(plan: &mut Plan<'_>) -> Result<(), Refused> {
    let connections = [
        plan.connect(LENGTHS, &settings(1))?,
        plan.connect(LENGTHS, &settings(2))?,
    ];
    assert_eq!(connections, [STOP, DRIVE]);
    let input = |of: Connection, bit| Wire::Input(of.bit(bit));
    let ready = plan.block(Kind::And, &[input(STOP, 0), input(DRIVE, 0)])?;
    let released = plan.block(Kind::Latch, &[input(STOP, 2), Wire::Block(ready)])?;
    let press = plan.block(Kind::And, &[Wire::Block(released), input(STOP, 1)])?;
    let pressed = plan.block(Kind::Latch, &[Wire::Block(press), Wire::Block(ready)])?;
    let release = plan.block(Kind::And, &[Wire::Block(pressed), input(STOP, 2)])?;
    let on = plan.block(Kind::Estop, &[Wire::Block(ready), Wire::Block(release)])?;
    plan.drive(DRIVE.bit(0), Wire::Block(on))
}

/// A plan in memory of its own, of which this call makes something.
fn planned<T>(make: impl FnOnce(Plan<'_>) -> T) -> T {
    let (mut memory, mut region) = (ControllerMemory::new(), region(MOST.units()));
    make(Plan::open(&mut memory, &mut region, MOST).unwrap())
}

/// The controller of the emergency stop, with its slaves and the frames under way, each with whether it is for a slave.
struct Machine<'m> {
    controller: Controller<'m>,
    slaves: [Slave<'m, One, 2, 2>; 2],
    under_way: VecDeque<(Connection, bool, Vec<u8>)>,
    stop_is_cut: bool,
    next_id: u32,
}

impl<'m> Machine<'m> {
    fn new(plan: Plan<'m>, memory: &'m mut [SlaveMemory; 2]) -> Machine<'m> {
        let mut address = 10;
        let slaves = memory.each_mut().map(|memory| {
            address += 1;
            let settings = SlaveSettings {
                address,
                hand: WATCHDOG,
                most: NonZeroU16::MAX,
                profile: One { nonce: 2 },
            };
            Slave::new(memory, &settings, Rule::any::<0>())
        });
        Machine {
            controller: plan.start().unwrap(),
            slaves,
            under_way: VecDeque::new(),
            stop_is_cut: false,
            next_id: 2,
        }
    }

    fn slave(&mut self, of: Connection) -> &mut Slave<'m, One, 2, 2> {
        &mut self.slaves[usize::from(of.0.get()) - 1]
    }

    fn push(&mut self, of: Connection, for_slave: bool, frame: Option<Vec<u8>>) {
        if of != STOP || !self.stop_is_cut {
            let frame = frame.map(|frame| (of, for_slave, frame));
            self.under_way.extend(frame);
        }
    }

    /// After each step of a connection: its frame, and a fresh id for the next session.
    fn follow(&mut self, of: Connection) {
        let step = self.controller.last_step();
        let (frame, reset) = (step.send().map(<[u8]>::to_vec), step.reset());
        self.push(of, true, frame);
        if reset.is_some() {
            assert_eq!(self.controller.nonce(of, self.next_id), Ok(()));
            self.next_id += 1;
        }
    }

    /// Ticks all, brings all frames, and tells the outputs of the drive.
    fn millisecond(&mut self) -> [u8; 2] {
        for of in [STOP, DRIVE] {
            let frame = self.slave(of).tick().send().map(<[u8]>::to_vec);
            self.push(of, false, frame);
        }
        self.controller.tick();
        for of in [STOP, DRIVE] {
            let _ = self.controller.ticked(of).unwrap();
            self.follow(of);
        }
        for _ in 0..64 {
            let Some((of, for_slave, frame)) = self.under_way.pop_front() else {
                break;
            };
            if for_slave {
                let frame = self.slave(of).deliver(&frame).send().map(<[u8]>::to_vec);
                self.push(of, false, frame);
            } else {
                let _ = self.controller.deliver(of, &frame).unwrap();
                self.follow(of);
            }
        }
        self.slave(DRIVE).outputs()
    }

    fn inputs(&mut self, of: Connection) -> [u8; 2] {
        let mut inputs = [0; 2];
        self.controller.inputs(of, &mut inputs).unwrap();
        inputs
    }

    /// Both connections in data, and the acknowledgement pressed and released: the drive is on.
    fn switched_on(plan: Plan<'m>, memory: &'m mut [SlaveMemory; 2]) -> Machine<'m> {
        let mut machine = Machine::new(plan, memory);
        machine.slave(DRIVE).put(&[1, 0]);
        for (of_stop, outputs) in [(5, [0, 0]), (3, [0, 0]), (5, [1, 0])] {
            machine.slave(STOP).put(&[of_stop, 0]);
            assert_eq!(machine.millisecond(), outputs);
            assert_eq!(machine.inputs(STOP), [of_stop, 0]);
            assert_eq!(machine.inputs(DRIVE), [1, 0]);
        }
        machine
    }
}

/// What the machine of the emergency stop does.
fn running<T>(run: impl FnOnce(Machine<'_>) -> T) -> T {
    planned(|mut plan| {
        emergency_stop(&mut plan).unwrap();
        let mut memory = [SlaveMemory::new(), SlaveMemory::new()];
        run(Machine::switched_on(plan, &mut memory))
    })
}

#[test]
fn a_drive_runs_from_the_acknowledgement_until_its_stop_is_lost() {
    running(|mut machine| {
        let (drive, on) = (DRIVE.bit(0), Block(number(6)));
        assert_eq!(machine.controller.connections(), 2);
        assert_eq!(machine.controller.state(STOP), Ok(State::Data));
        let terms = machine.controller.terms(STOP).unwrap().unwrap();
        assert_eq!((terms.conn, terms.address, terms.watchdog), (1, 11, 5));
        for (input, guards) in [(STOP.bit(0), true), (drive, true), (STOP.bit(1), false)] {
            assert_eq!(machine.controller.guards(drive, input), Ok(guards));
        }
        assert_eq!(machine.controller.value(on), Ok(true));
        machine.slave(STOP).put(&[4, 0]);
        machine.stop_is_cut = true;
        for _ in 1..5 {
            assert_eq!(machine.millisecond(), [1, 0]);
        }
        assert_eq!(machine.millisecond(), [0, 0]);
        assert_eq!(machine.controller.state(STOP), Ok(State::Reset));
        assert_eq!(machine.controller.terms(STOP), Ok(None));
        assert_eq!(machine.controller.counts(STOP).unwrap().found[5], 1);
        assert_eq!(machine.inputs(STOP), [0, 0]);
        assert_eq!(machine.controller.value(on), Ok(false));
    });
}

#[test]
fn a_connection_is_held_and_reset_and_its_counts_are_cleared() {
    running(|mut machine| {
        let mut offer = [0; 2];
        machine.controller.offer(DRIVE, &mut offer).unwrap();
        assert_eq!(offer, [1, 0]);
        assert_eq!(machine.controller.hold(DRIVE, true), Ok(()));
        assert_eq!(machine.controller.held(DRIVE), Ok(true));
        assert_eq!(machine.millisecond(), [0, 0]);
        assert_eq!(machine.controller.age(DRIVE), Ok(0));

        let counts = machine.controller.counts(DRIVE).unwrap();
        assert_eq!((counts.sessions, counts.local), (1, 0));
        let step = machine.controller.reset(DRIVE).unwrap();
        assert_eq!(step.reset(), Some(Cause::Local));
        assert_eq!(step.send().map(|frame| frame[0]), Some(0x2A));
        assert_eq!(machine.controller.changed(DRIVE), Ok(true));
        assert_eq!(machine.controller.changed(STOP), Ok(false));
        let step = machine.controller.deliver(DRIVE, &[1]).unwrap();
        assert_eq!(step.dropped(), Some(Dropped::Length));
        let counts = machine.controller.counts(DRIVE).unwrap();
        assert_eq!((counts.local, counts.dropped), (1, [1, 0, 0]));
        assert_eq!(machine.controller.clear_counts(DRIVE), Ok(()));
        assert_eq!(machine.controller.counts(DRIVE), Ok(Default::default()));
    });
}

#[test]
fn steps_and_readers_refuse_a_connection_a_block_and_a_length_that_are_not_there() {
    running(|mut machine| {
        let (it, refused) = (&mut machine.controller, Some(Refused::NoConnection));
        assert_eq!(it.deliver(NOWHERE, &[]).err(), refused);
        assert_eq!(it.ticked(NOWHERE).err(), refused);
        assert_eq!(it.reset(NOWHERE).err(), refused);
        assert_eq!(it.hold(NOWHERE, true).err(), refused);
        assert_eq!(it.nonce(NOWHERE, u32::MAX).err(), refused);
        assert_eq!(it.state(NOWHERE).err(), refused);
        assert_eq!(it.inputs(NOWHERE, &mut []).err(), refused);
        assert_eq!(it.offer(NOWHERE, &mut []).err(), refused);
        assert_eq!(it.terms(NOWHERE).err(), refused);
        assert_eq!(it.age(NOWHERE).err(), refused);
        assert_eq!(it.held(NOWHERE).err(), refused);
        assert_eq!(it.changed(NOWHERE).err(), refused);
        assert_eq!(it.counts(NOWHERE).err(), refused);
        assert_eq!(it.clear_counts(NOWHERE).err(), refused);
        assert_eq!(it.guards(NOWHERE.bit(0), STOP.bit(0)).err(), refused);
        assert_eq!(it.guards(DRIVE.bit(0), NOWHERE.bit(0)).err(), refused);
        assert_eq!(
            it.guards(DRIVE.bit(16), STOP.bit(16)),
            Err(Refused::NoOutput)
        );
        assert_eq!(it.guards(DRIVE.bit(0), STOP.bit(16)), Err(Refused::NoInput));
        assert_eq!(it.nonce(STOP, 65_536), Err(Refused::BadNonce));
        assert_eq!(it.inputs(STOP, &mut [0]), Err(Refused::BadLength));
        assert_eq!(it.offer(STOP, &mut [0; 3]), Err(Refused::BadLength));
        assert_eq!(it.value(Block(number(7))), Err(Refused::NoBlock));
        assert_eq!(machine.millisecond(), [1, 0]);
    });
}

#[test]
fn a_plan_refuses_what_a_controller_may_not_have() {
    planned(|mut plan| {
        let odd = Lengths {
            slave: 3,
            ..LENGTHS
        };
        assert_eq!(plan.connect(odd, &settings(1)), Err(Refused::BadLength));
        assert_eq!(plan.connect(LENGTHS, &settings(1)), Ok(STOP));
        let same = plan.connect(LENGTHS, &settings(1));
        assert_eq!(same, Err(Refused::SameConn));
        let nine = plan.block(Kind::Or, &[block(1); 9]);
        assert_eq!(nine, Err(Refused::TooMany));
    });
}

#[test]
fn an_id_of_32_bits_is_for_profile_two() {
    planned(|mut plan| {
        let settings = MasterSettings {
            conn: number(1),
            address: 11,
            watchdog: WATCHDOG,
            app: App::new(&[1; 512]).unwrap(),
            profile: Two { nonce: 1, word: 7 },
        };
        let connection = plan.connect(LENGTHS, &settings).unwrap();
        let mut controller = plan.start().unwrap();
        assert_eq!(controller.nonce(connection, u32::MAX), Ok(()));
    });
}

#[test]
fn a_start_tells_the_first_fault_of_the_net() {
    use Fault::{Arity, Later, NoInput, NoOutput, Twice};
    use Kind::{And, Const0, Const1, Latch, Or};
    let started = |kind, inputs: &[Wire], drives: &[(Bit, Wire)]| {
        planned(|mut plan| {
            plan.connect(LENGTHS, &settings(1)).unwrap();
            plan.block(kind, inputs).unwrap();
            for (output, from) in drives {
                plan.drive(*output, *from).unwrap();
            }
            plan.start().err()
        })
    };
    let (input, beyond) = (Wire::Input(STOP.bit(15)), Wire::Input(STOP.bit(16)));
    let (on, past) = (STOP.bit(15), STOP.bit(16));
    let (first, twice) = (Block(number(1)), [(on, input), (on, block(1))]);
    assert_eq!(started(And, &[input], &[(on, block(1))]), None);
    assert_eq!(started(Latch, &[input], &[]), Some(Arity(first)));
    assert_eq!(started(Or, &[block(1)], &[]), Some(Later(Some(first))));
    assert_eq!(started(Const1, &[], &[(on, block(2))]), Some(Later(None)));
    assert_eq!(started(Or, &[beyond], &[]), Some(NoInput(past)));
    assert_eq!(started(Const0, &[], &[(past, input)]), Some(NoOutput(past)));
    assert_eq!(started(Const0, &[], &twice), Some(Twice(on)));
}

#[test]
fn a_block_counts_the_ticks_of_its_kind() {
    planned(|mut plan| {
        let on = plan.block(Kind::Const1, &[]).unwrap();
        let delayed = plan.block(Kind::OnDelay(2), &[Wire::Block(on)]).unwrap();
        let mut controller = plan.start().unwrap();
        for value in [false, false, true] {
            assert_eq!(controller.value(on), Ok(true));
            assert_eq!(controller.value(delayed), Ok(value));
            controller.tick();
        }
    });
}

/// Over regions of all sizes from none on, a call is refused up to the first size that is enough.
#[test]
fn a_region_that_is_too_small_is_refused() {
    let (mut memory, mut region) = (ControllerMemory::new(), region(2 * MOST.units()));
    let none = Most {
        connections: 0,
        blocks: 0,
        drives: 0,
    };
    let mut made = |most, units| {
        let opened = Plan::open(&mut memory, &mut region[..units], most);
        let all = opened.and_then(|mut plan| emergency_stop(&mut plan));
        assert!(matches!(all, Ok(()) | Err(Refused::NoMemory)));
        all.is_ok()
    };
    for most in [none, MOST] {
        let enough = (0..=2 * MOST.units())
            .map(|units| made(most, units))
            .collect::<Vec<_>>();
        assert!(enough.windows(2).all(|pair| pair[0] <= pair[1]));
        assert!(!enough[0] && enough[2 * MOST.units()]);
    }
    assert!(made(MOST, MOST.units()));
}

#[test]
fn a_controller_goes_to_another_thread_and_its_memory_is_used_again() {
    let (mut memory, mut region) = (ControllerMemory::new(), region(MOST.units()));
    for _ in 0..2 {
        let mut plan = Plan::open(&mut memory, &mut region, MOST).unwrap();
        emergency_stop(&mut plan).unwrap();
        let mut controller = std::thread::scope(|scope| {
            let started = scope.spawn(|| plan.start().unwrap());
            started.join().unwrap()
        });
        assert!(controller.ticked(STOP).unwrap().send().is_none());
        assert_eq!(controller.age(STOP), Ok(WATCHDOG.get() - 1));
        controller.tick();
        assert!(controller.ticked(STOP).unwrap().send().is_some());
    }
}
