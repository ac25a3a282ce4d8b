//! Tries every schedule of two steps in a driver's interrupt handler, and finds a race that was planted there.
//!
//! The right handler reads ICR, and then looks for finished descriptors. The wrong one looks first. If a frame is
//! finished after the look and before the read, the read clears its cause, and no interrupt reports the frame.

use nic82540em::{Fate, Nic, Options, Step, registers};

const RING: u64 = 0x1000;
const BUFFERS: u64 = 0x10000;
const BUFFER_BYTES: u64 = 2048;
const SLOTS: u64 = 8;
const DESCRIPTOR_BYTES: u64 = 16;
const STATUS: usize = 12;
const DONE: u8 = 1;
const RXT0: u32 = 1 << 7;
const FRAMES: u8 = 2;

/// Two steps, each before the access of the handler with this number, counted from 0.
type Schedule = [(u64, Step); 2];

/// A driver that receives frames.
struct Driver {
    nic: Nic,
    next: u64,
    received: Vec<u8>,
    is_late: bool,
}

impl Driver {
    fn new(is_late: bool) -> Driver {
        let mut nic = Nic::new(&Options::default()).expect("an adapter");
        for slot in 0..SLOTS {
            let address = (BUFFERS + slot * BUFFER_BYTES).to_le_bytes();
            nic.store(RING + slot * DESCRIPTOR_BYTES, &address).expect("a descriptor");
        }
        for (register, value) in [
            (registers::RDBAL, RING as u32),
            (registers::RDLEN, (SLOTS * DESCRIPTOR_BYTES) as u32),
            (registers::RDT, SLOTS as u32 - 1),
            (registers::RCTL, 1 << 1 | 1 << 15),
            (registers::IMS, RXT0),
        ] {
            nic.write(register, value);
        }
        Driver { nic, next: 0, received: Vec::new(), is_late }
    }

    fn read_icr(&mut self) {
        self.nic.read(registers::ICR);
    }

    /// Takes each frame whose descriptor is done.
    fn take_frames(&mut self) {
        loop {
            let mut descriptor = [0; DESCRIPTOR_BYTES as usize];
            self.nic.load(RING + self.next * DESCRIPTOR_BYTES, &mut descriptor).expect("a descriptor");
            if descriptor[STATUS] & DONE == 0 {
                return;
            }
            let mut first = [0];
            self.nic.load(BUFFERS + self.next * BUFFER_BYTES + 14, &mut first).expect("a frame");
            self.received.push(first[0]);
            self.next = (self.next + 1) % SLOTS;
        }
    }

    fn interrupt(&mut self) {
        if self.is_late {
            self.take_frames();
            self.read_icr();
        } else {
            self.read_icr();
            self.take_frames();
        }
    }
}

fn frame(number: u8) -> [u8; 60] {
    let mut frame = [number; 60];
    frame[..6].fill(0xFF);
    frame
}

/// Runs the handler once with a schedule, and then until the interrupt line is low. Returns the frames that the driver
/// received, and the number of accesses of the first run.
fn run(is_late: bool, schedule: Option<Schedule>) -> (Vec<u8>, u64) {
    let mut driver = Driver::new(is_late);
    for number in 0..FRAMES {
        assert_eq!(driver.nic.arrive(&frame(number)), Fate::Stored);
    }
    driver.nic.step(Step::RxData);
    driver.nic.step(Step::RxDone);
    let first = driver.nic.accesses();
    for (access, step) in schedule.into_iter().flatten() {
        driver.nic.schedule(first + access, step).expect("room");
    }
    driver.interrupt();
    let accesses = driver.nic.accesses() - first;
    driver.nic.settle();
    while driver.nic.line() {
        driver.interrupt();
        driver.nic.settle();
    }
    (driver.received.clone(), accesses)
}

/// The schedules of two steps before accesses with numbers below `accesses`. The access of the second step is that of
/// the first, or a later one.
fn schedules(accesses: u64) -> impl Iterator<Item = Schedule> {
    let places = move || (0..accesses).flat_map(|access| Step::ALL.map(|step| (access, step)));
    places().flat_map(move |first| places().filter(move |later| first.0 <= later.0).map(move |later| [first, later]))
}

/// Tries all schedules. Returns their number, and those that lose a frame.
fn try_all(is_late: bool) -> (usize, Vec<Schedule>) {
    // With two frames received, the handler makes more accesses than with one.
    let (_, accesses) = run(is_late, None);
    let all: Vec<Schedule> = schedules(accesses + 2).collect();
    let failed = all.iter().copied().filter(|&schedule| run(is_late, Some(schedule)).0 != [0, 1]).collect();
    (all.len(), failed)
}

fn main() {
    for (name, is_late) in [("right", false), ("late", true)] {
        let (count, failed) = try_all(is_late);
        println!("{name}: {count} schedules, {} lose a frame", failed.len());
        for schedule in failed {
            println!("  {schedule:?}");
        }
    }
}
