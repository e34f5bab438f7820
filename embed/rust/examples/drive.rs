//! The drive of `embed/examples/drive.c`, in a thread of its own: a slave in its cyclic loop. Each millisecond it takes the frames that
//! came, counts a tick, drives its motor by the outputs, and sends what is to be sent. Where anything is wrong the motor is off.
//!
//! `Device` is what you replace. Here a list of frames stands for the bus: a master brings the connection up, switches the motor on,
//! and then is silent until the watchdog expires.
//!
//! When data come again the motor stays off until its bit was 0 and is 1 again, so a bit that is stuck starts nothing. That somebody
//! acknowledged it is up to the master's application.

use std::num::NonZeroU16;
use std::thread;

use gatepast::{One, Rule, Slave, SlaveMemory, SlaveSettings, State};

const CONNECTION: u16 = 1;
/// So many frames are taken in a millisecond, so that ticks never wait for frames.
const MOST_FRAMES: usize = 4;
/// After so many resets a person has to look.
const MOST_RESETS: u32 = 100;

const COMING: [[u8; 7]; 9] = [
    [0x2A, 0x00, 0x00, 0xC4, 0x2D, 0x00, 0x00],
    [0x4E, 0x01, 0x00, 0x12, 0x3E, 0x00, 0x00],
    [0x64, 0x01, 0x00, 0x64, 0x2A, 0x01, 0x00],
    [0x64, 0x02, 0x00, 0x62, 0x5F, 0x01, 0x00],
    [0x52, 0x02, 0x00, 0xEE, 0x74, 0x01, 0x00],
    [0x52, 0x64, 0x00, 0x58, 0xDA, 0x01, 0x00],
    [0x52, 0x00, 0x00, 0x71, 0x99, 0x01, 0x00],
    [0x36, 0x00, 0x00, 0x7F, 0xD9, 0x01, 0x00],
    [0x36, 0x01, 0x00, 0xBF, 0x61, 0x01, 0x00],
];

/// Why the drive ends before its time.
type Stop = &'static str;

/// The bus, the motor, the clock and the memory that outlasts power-off. The motor is off from the start, and when this is let go.
struct Device {
    now: usize,
    next: usize,
    motor: Option<bool>,
    cell: u16,
}

impl Device {
    fn new() -> Device {
        let mut device = Device {
            now: 0,
            next: 0,
            motor: None,
            cell: 0,
        };
        device.drive_motor([0; 2]);
        device
    }

    /// Waits for the next millisecond, or not where one was missed: each is ticked. False where the program is to end.
    fn next_millisecond(&mut self) -> bool {
        self.now += 1;
        self.now <= 150
    }

    /// A frame that came, or None at once.
    fn receive(&mut self) -> Option<&'static [u8; 7]> {
        let frame = COMING.get(self.next).filter(|_| self.next < self.now)?;
        self.next += 1;
        Some(frame)
    }

    /// Hands a frame to the bus, and doesn't wait.
    fn send(&self, frame: &[u8]) {
        let bytes: String = frame.iter().map(|byte| format!(" {byte:02x}")).collect();
        println!("{:3} ms: sends{bytes}", self.now);
    }

    /// Bit 0 of the first byte: the motor is enabled. All zeros is off.
    fn drive_motor(&mut self, outputs: [u8; 2]) {
        let on = outputs[0] & 1 != 0;
        if self.motor.replace(on) != Some(on) {
            println!("{:3} ms: motor {}", self.now, if on { "on" } else { "off" });
        }
    }

    /// The session id that was used last, from memory that outlasts power-off. Here each run begins at 0, as no device may, since the
    /// frames above belong to id 2.
    fn read_lasting(&self) -> u16 {
        self.cell
    }

    /// Keeps a session id there.
    fn write_lasting(&mut self, id: u16) -> Result<(), Stop> {
        self.cell = id;
        Ok(())
    }

    /// A session id that no session of this drive had, kept before it is used. A slave counts by 2.
    fn fresh_id(&mut self) -> Result<u16, Stop> {
        let id = self.read_lasting().checked_add(2);
        let id = id.ok_or("all session ids are used up")?;
        self.write_lasting(id)?;
        Ok(id)
    }
}

impl Drop for Device {
    fn drop(&mut self) {
        self.drive_motor([0; 2]);
    }
}

struct Drive<'m> {
    device: Device,
    slave: Slave<'m, One, 2, 2>,
    looked: bool,
    released: bool,
    resets: u32,
}

impl<'m> Drive<'m> {
    fn new(memory: &'m mut SlaveMemory) -> Result<Self, Stop> {
        let mut device = Device::new();
        let nonce = device.fresh_id()?;
        let settings = SlaveSettings {
            address: 2,
            hand: NonZeroU16::new(200).ok_or("a handshake without time")?,
            most: NonZeroU16::new(100).ok_or("a watchdog of 0")?,
            profile: One { nonce },
        };
        let slave = Slave::new(memory, &settings, Rule::any::<0>());
        Ok(Drive {
            device,
            slave,
            looked: false,
            released: false,
            resets: 0,
        })
    }

    fn run(&mut self) -> Result<(), Stop> {
        while self.device.next_millisecond() {
            self.slave.put(&[0x80, 0x00]); // what the drive tells its master: ready
            for _ in 0..MOST_FRAMES {
                let Some(frame) = self.device.receive() else {
                    break;
                };
                let _ = self.slave.deliver(frame);
                self.follow()?;
            }
            let _ = self.slave.tick();
            self.follow()?;
        }
        Ok(())
    }

    /// Looks at what a session agreed on when it comes to data, before its first outputs. Ends one that isn't for this drive.
    fn look_at_terms(&mut self) {
        let in_data = self.slave.state() == State::Data;
        let first = in_data && !self.looked;
        self.looked = in_data;
        if first && self.slave.terms().map(|terms| terms.conn) != Some(CONNECTION) {
            let _ = self.slave.reset();
        }
    }

    /// The outputs, with the motor's bit held at 0 until it came as 0 since data came.
    fn interlocked(&mut self) -> [u8; 2] {
        let [first, second] = self.slave.outputs();
        let in_data = self.slave.state() == State::Data;
        self.released = in_data && (self.released || first & 1 == 0);
        [if self.released { first } else { first & 0xFE }, second]
    }

    /// After each step: first the outputs, then the frame, and last what may take its time.
    fn follow(&mut self) -> Result<(), Stop> {
        if self.slave.last_step().used_id() {
            return Err("a session id comes again");
        }
        self.look_at_terms();
        let outputs = self.interlocked();
        self.device.drive_motor(outputs);
        let step = self.slave.last_step();
        if let Some(frame) = step.send() {
            self.device.send(frame);
        }
        let Some(cause) = step.reset() else {
            return Ok(());
        };
        println!(
            "{:3} ms: the session ended with code {:02x}",
            self.device.now,
            cause.code().0
        );
        self.resets += 1;
        if self.resets > MOST_RESETS {
            return Err("too many resets");
        }
        self.slave.nonce(self.device.fresh_id()?);
        Ok(())
    }
}

fn main() -> Result<(), Stop> {
    let drive = thread::spawn(|| Drive::new(&mut SlaveMemory::new())?.run());
    drive.join().map_err(|_| "the drive panicked")?
}
