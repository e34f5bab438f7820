//! Both ends by the wrapper.

use std::num::NonZeroU16;

use gatepast::{
    Accepted, App, Cause, Code, Command, Dropped, Master, MasterMemory, MasterSettings, One, Rule,
    Slave, SlaveMemory, SlaveSettings, State, Two,
};

const TICKS: NonZeroU16 = match NonZeroU16::new(20) {
    Some(ticks) => ticks,
    None => panic!(),
};

fn of_slave<P>(profile: P) -> SlaveSettings<P> {
    SlaveSettings {
        address: 7,
        hand: TICKS,
        most: TICKS,
        profile,
    }
}

fn of_master<P>(app: App<'_>, profile: P) -> MasterSettings<'_, P> {
    MasterSettings {
        conn: NonZeroU16::MIN,
        address: 7,
        watchdog: TICKS,
        app,
        profile,
    }
}

/// Exchanges frames until both ends are in Data, and gives the master's frame that is under way.
fn bring_up<const M: usize, const S: usize>(
    master: &mut Master<'_, Two, M, S>,
    slave: &mut Slave<'_, Two, M, S>,
) -> Vec<u8> {
    let mut frame = master.tick().send().unwrap().to_vec();
    for _ in 0..1000 {
        let answer = slave.deliver(&frame).send().unwrap().to_vec();
        frame = master.deliver(&answer).send().unwrap().to_vec();
        if master.state() == State::Data && slave.state() == State::Data {
            return frame;
        }
    }
    panic!("the handshake didn't end");
}

#[test]
fn both_ends_come_to_data_and_exchange_them() {
    let (mut sm, mut mm) = (SlaveMemory::new(), MasterMemory::new());
    let app = App::new(&[10, 20, 30]).unwrap();
    let mut slave = Slave::<Two, 4, 6>::new(
        &mut sm,
        &of_slave(Two {
            nonce: 70_000,
            word: 5,
        }),
        Rule::exact(app),
    );
    let mut master = Master::<Two, 4, 6>::new(
        &mut mm,
        &of_master(
            app,
            Two {
                nonce: 90_001,
                word: 5,
            },
        ),
    );
    slave.put(&[1, 2, 3, 4, 5, 6]);
    master.put(&[9, 8, 7, 6]);
    let mut frame = bring_up(&mut master, &mut slave);
    for _ in 0..3 {
        let step = slave.deliver(&frame);
        let answer = step.send().unwrap().to_vec();
        frame = master.deliver(&answer).send().unwrap().to_vec();
    }
    assert_eq!(slave.outputs(), [9, 8, 7, 6]);
    assert_eq!(master.outputs(), [1, 2, 3, 4, 5, 6]);
    assert_eq!(
        (slave.offer(), master.offer()),
        ([1, 2, 3, 4, 5, 6], [9, 8, 7, 6])
    );
    let terms = slave.terms().unwrap();
    assert_eq!(
        (terms.conn, terms.address, terms.watchdog, terms.word),
        (1, 7, 20, Some(5))
    );
    assert_eq!(terms.app(), [10, 20, 30]);
    assert_eq!(master.terms(), Some(terms));
    assert_eq!(slave.deliver(&frame[1..]).dropped(), Some(Dropped::Length));
}

#[test]
fn a_silent_peer_ends_the_session_at_the_watchdog() {
    let (mut sm, mut mm) = (SlaveMemory::new(), MasterMemory::new());
    let ranges = Rule::ranges(App::new(&[0, 5]).unwrap(), App::new(&[9, 5]).unwrap()).unwrap();
    let app = [3, 5];
    let mut slave = Slave::<Two, 2, 2>::new(&mut sm, &of_slave(Two { nonce: 2, word: 0 }), ranges);
    let mut master = Master::<Two, 2, 2>::new(
        &mut mm,
        &of_master(App::new(&app).unwrap(), Two { nonce: 1, word: 0 }),
    );
    master.put(&[0xFF, 0x01]);
    let frame = bring_up(&mut master, &mut slave);
    let _ = slave.deliver(&frame);
    assert_eq!(slave.outputs(), [0xFF, 0x01]);
    for age in 1..20 {
        assert!(slave.tick().send().is_none());
        assert_eq!(slave.age(), age);
        assert_eq!(slave.outputs(), [0xFF, 0x01]);
    }
    let step = slave.tick();
    assert_eq!(step.reset(), Some(Cause::Found(Code::WATCHDOG_EXPIRED)));
    assert_eq!(step.send().unwrap()[..2], [0x2A, 0x05]);
    assert_eq!(slave.outputs(), [0, 0]);
    assert_eq!((slave.state(), slave.terms()), (State::Reset, None));
}

#[test]
fn a_reply_carries_what_was_put_after_the_frame_came() {
    let (mut sm, mut mm) = (SlaveMemory::new(), MasterMemory::new());
    let mut slave = Slave::<Two, 2, 2>::new(
        &mut sm,
        &of_slave(Two { nonce: 2, word: 0 }),
        Rule::any::<0>(),
    );
    let mut master =
        Master::<Two, 2, 2>::new(&mut mm, &of_master(App::NONE, Two { nonce: 1, word: 0 }));
    let frame = bring_up(&mut master, &mut slave);
    slave.put(&[4, 2]);
    let answer = slave.deliver(&frame).send().unwrap().to_vec();
    let Accepted::Due(mut due) = master.accept(&answer) else {
        panic!("a frame is due");
    };
    assert_eq!(
        due.took().map(|took| (took.command, took.load.to_vec())),
        Some((Command::ProcessData, vec![4, 2]))
    );
    let [first, second] = due.outputs();
    due.put(&[second, first]);
    let frame = due.reply().to_vec();
    let _ = slave.deliver(&frame);
    assert_eq!(slave.outputs(), [2, 4]);
    assert!(matches!(
        master.accept(&[1, 2, 3]),
        Accepted::Dropped(Some(Dropped::Length))
    ));
}

#[test]
fn a_frame_that_is_due_and_let_go_is_lost() {
    let (mut sm, mut mm) = (SlaveMemory::new(), MasterMemory::new());
    let mut slave = Slave::<Two, 2, 2>::new(
        &mut sm,
        &of_slave(Two { nonce: 2, word: 0 }),
        Rule::any::<0>(),
    );
    let mut master =
        Master::<Two, 2, 2>::new(&mut mm, &of_master(App::NONE, Two { nonce: 1, word: 0 }));
    let frame = bring_up(&mut master, &mut slave);
    let answer = slave.deliver(&frame).send().unwrap().to_vec();
    drop(master.accept(&answer));
    assert!(master.tick().send().is_none());
    let reset = master.reset();
    assert_eq!(reset.reset(), Some(Cause::Local));
    let reset = reset.send().unwrap().to_vec();
    let answer = slave.deliver(&reset).send().unwrap().to_vec();
    assert_eq!(slave.state(), State::Reset);
    let accepted = master.accept(&answer);
    assert!(matches!(&accepted, Accepted::Due(due) if due.used_id()));
    std::mem::forget(accepted);
    assert!(master.tick().send().is_none());
}

#[test]
fn a_held_end_sends_fail_safe_data() {
    let (mut sm, mut mm) = (SlaveMemory::new(), MasterMemory::new());
    let mut slave = Slave::<Two, 2, 2>::new(
        &mut sm,
        &of_slave(Two { nonce: 2, word: 0 }),
        Rule::any::<0>(),
    );
    let mut master =
        Master::<Two, 2, 2>::new(&mut mm, &of_master(App::NONE, Two { nonce: 1, word: 0 }));
    master.put(&[1, 1]);
    master.hold(true);
    assert!(master.held() && !slave.held());
    let frame = bring_up(&mut master, &mut slave);
    assert_eq!(frame[0], 0x08);
    let step = slave.deliver(&frame);
    assert_eq!(
        step.took().map(|took| took.command),
        Some(Command::FailSafeData)
    );
    assert!(step.passed());
    assert_eq!(slave.outputs(), [0, 0]);
}

#[test]
fn ends_go_to_other_threads_and_their_memory_is_used_again() {
    let mut memory = SlaveMemory::new();
    for id in [2, 4] {
        let mut slave = Slave::<One, 2, 2>::new(
            &mut memory,
            &of_slave(One { nonce: id }),
            Rule::any::<512>(),
        );
        std::thread::scope(|scope| {
            scope.spawn(|| {
                assert!(slave
                    .deliver(&[0x2A, 0x00, 0x00, 0xC4, 0x2D, 0x00, 0x00])
                    .send()
                    .is_some())
            });
        });
        slave.nonce(id + 1);
        assert_eq!(slave.state(), State::Reset);
    }
}
