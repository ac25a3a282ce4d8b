//! A small receive driver in Rust, and its test, whose schedules are searched.
//!
//! usage: receive right|late [OPTION..]

use nic82540em_explore::{explore, Arena, Bus, Explored, RXDATA, RXDONE, STORED};

#[global_allocator]
static ARENA: Arena = Arena;

const RING: u64 = 0x1000;
const BUFFERS: u64 = 0x10000;
const BUFFER: u64 = 2048;
const SLOTS: u64 = 8;

struct Driver<B: Bus> {
    bus: B,
    next: u64,
    received: Vec<Vec<u8>>,
    is_late: bool,
}

impl<B: Bus> Driver<B> {
    fn new(bus: B, is_late: bool) -> Self {
        let mut driver = Driver { bus, next: 0, received: Vec::new(), is_late };
        driver.bus.write(0, 1 << 26);
        (0..SLOTS).for_each(|slot| driver.offer(slot));
        for (offset, value) in [(0x2800, RING as u32), (0x2808, 128), (0x2818, 7), (0x100, 0x0400_8002), (0xD0, 0x80)] {
            driver.bus.write(offset, value);
        }
        driver
    }

    fn offer(&mut self, slot: u64) {
        let mut bytes = [0; 16];
        bytes[..8].copy_from_slice(&(BUFFERS + BUFFER * slot).to_le_bytes());
        self.bus.store(RING + 16 * slot, &bytes);
    }

    fn take(&mut self) {
        loop {
            let mut end = [0; 5];
            self.bus.load(RING + 16 * self.next + 8, &mut end);
            if end[4] & 1 == 0 {
                return;
            }
            let mut frame = vec![0; u16::from_le_bytes([end[0], end[1]]) as usize];
            self.bus.load(BUFFERS + BUFFER * self.next, &mut frame);
            self.received.push(frame);
            self.offer(self.next);
            self.bus.write(0x2818, self.next as u32);
            self.next = (self.next + 1) % SLOTS;
        }
    }

    fn interrupt(&mut self) {
        if self.is_late {
            self.take();
            self.bus.read(0xC0);
        } else {
            self.bus.read(0xC0);
            self.take();
        }
    }
}

fn frame(number: u8) -> Vec<u8> {
    let mut frame = vec![number; 60 + 40 * (number as usize % 4)];
    frame[..14].copy_from_slice(&[2, 0, 0, 0, 0, 1, 2, 0, 0, 0, 0, 9, 0x88, 0xB5]);
    frame
}

fn receives(mut test: Explored, is_late: bool) {
    let mut driver = Driver::new(test, is_late);
    let mut sent: Vec<Vec<u8>> = Vec::new();
    for round in 0..6 {
        for number in [2 * round, 2 * round + 1] {
            assert_eq!(test.arrive(&frame(number)), STORED);
            sent.push(frame(number));
        }
        test.step(RXDATA);
        test.step(RXDONE);
        loop {
            while test.line() {
                driver.interrupt();
            }
            if test.settle() == 0 && !test.line() {
                break;
            }
        }
        assert!(driver.received.len() >= sent.len(), "frame {} was never received", driver.received.len());
        assert!(driver.received == sent, "a frame was received with wrong bytes");
    }
}

fn main() {
    let is_late = std::env::args().nth(1).is_some_and(|word| word == "late");
    std::process::exit(explore(move |test| receives(test, is_late)));
}
