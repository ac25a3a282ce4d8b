//! Tests a driver that receives frames, as a command of tools/races. Replace the struct Driver by your driver.
//!
//! usage: receive_test right|wrong
//!
//! Requests go to standard output, and answers come from standard input. The exit status is 0 if each frame is received
//! once, in order and unchanged. Otherwise it is 1, and the fault is on standard error. `wrong` selects a driver with a
//! race.

use std::io::stdin;

fn hex(data: &[u8]) -> String {
    data.iter().map(|byte| format!("{byte:02x}")).collect()
}

fn number_of(digits: &str) -> u32 {
    u32::from_str_radix(digits, 16).unwrap_or_else(|_| fail(&format!("{digits} isn't a number of 32 bits")))
}

fn fail(fault: &str) -> ! {
    eprintln!("{fault}");
    std::process::exit(1)
}

/// The registers, the memory and the interrupt line.
struct Adapter {
    line_is_up: bool,
}

impl Adapter {
    /// Sends a request, and returns its answer without OK. Skips lines such as `frame HEX`.
    fn ask(&mut self, request: &str) -> String {
        println!("{request}");
        for line in stdin().lines().map_while(Result::ok) {
            match line.split_once(' ').unwrap_or((&line, "")) {
                ("OK", answer) => return answer.to_string(),
                ("IRQ", change) => self.line_is_up = change == "raise 0",
                ("ERR" | "FAIL", _) => fail(&format!("the server answers {line}")),
                _ => {}
            }
        }
        fail("the server has ended")
    }

    fn read_register(&mut self, offset: u32) -> u32 {
        let answer = self.ask(&format!("readl {:#x}", 0xFEB0_0000 + offset));
        number_of(&answer[2..])
    }

    fn write_register(&mut self, offset: u32, value: u32) {
        self.ask(&format!("writel {:#x} {value:#x}", 0xFEB0_0000 + offset));
    }

    fn read_memory(&mut self, address: usize, size: usize) -> Vec<u8> {
        let answer = self.ask(&format!("read {address:#x} {size}"));
        (2..answer.len()).step_by(2).map(|at| number_of(&answer[at..at + 2]) as u8).collect()
    }

    fn write_memory(&mut self, address: usize, data: &[u8]) {
        self.ask(&format!("write {address:#x} {} 0x{}", data.len(), hex(data)));
    }
}

// The driver. It makes its accesses by the last four functions above, and appends each received frame to `received`.

const CTRL: u32 = 0x0000;
const ICR: u32 = 0x00C0;
const IMS: u32 = 0x00D0;
const RCTL: u32 = 0x0100;
const RDBAL: u32 = 0x2800;
const RDLEN: u32 = 0x2808;
const RDT: u32 = 0x2818;
const SLOTS: usize = 8;
const RING: usize = 0x1000;
const BUFFERS: usize = 0x10000;
const BUFFER_SIZE: usize = 2048;

struct Driver {
    adapter: Adapter,
    received: Vec<Vec<u8>>,
    is_right: bool,
    next: usize, // the slot of the next frame
}

impl Driver {
    /// Stores the descriptor of a slot that waits for a frame.
    fn store_descriptor(&mut self, slot: usize) {
        let buffer = (BUFFERS + BUFFER_SIZE * slot) as u128;
        self.adapter.write_memory(RING + 16 * slot, &buffer.to_le_bytes());
    }

    fn bring_up(&mut self) {
        for slot in 0..SLOTS {
            self.store_descriptor(slot);
        }
        self.adapter.write_register(CTRL, 1 << 26); // reset
        self.adapter.write_register(RDBAL, RING as u32);
        self.adapter.write_register(RDLEN, 16 * SLOTS as u32);
        self.adapter.write_register(RDT, SLOTS as u32 - 1);
        self.adapter.write_register(RCTL, 0x0400_8002); // receive, also broadcasts; without the CRC
        self.adapter.write_register(IMS, 0x80); // RXT0
    }

    /// Delivers all finished frames, and offers their slots again.
    fn take_frames(&mut self) {
        loop {
            // length, checksum and status
            let end = self.adapter.read_memory(RING + 16 * self.next + 8, 5);
            if end[4] & 1 == 0 {
                return;
            }
            let length = u16::from_le_bytes([end[0], end[1]]) as usize;
            let frame = self.adapter.read_memory(BUFFERS + BUFFER_SIZE * self.next, length);
            self.received.push(frame);
            self.store_descriptor(self.next);
            self.adapter.write_register(RDT, self.next as u32);
            self.next = (self.next + 1) % SLOTS;
        }
    }

    /// Handles an interrupt. In the wrong order, the read of ICR may clear the cause of a frame that isn't taken.
    fn interrupt(&mut self) {
        if self.is_right {
            self.adapter.read_register(ICR);
        }
        self.take_frames();
        if !self.is_right {
            self.adapter.read_register(ICR);
        }
    }
}

// The test

/// Returns a frame of 60 to 360 bytes to the adapter's address.
fn frame_of(number: usize) -> Vec<u8> {
    let mut frame = vec![2, 0, 0, 0, 0, 1, 2, 0, 0, 0, 0, 9, 0x88, 0xB5];
    frame.resize(60 + 100 * (number % 4), number as u8);
    frame
}

/// Lets a frame arrive, which the adapter must store in its packet buffer.
fn arrive(adapter: &mut Adapter, number: usize) {
    if adapter.ask(&format!("arrive {}", hex(&frame_of(number)))) != "stored" {
        fail(&format!("frame {number} wasn't stored"));
    }
}

/// Calls the handler while the line is up.
fn handle(driver: &mut Driver) {
    while driver.adapter.line_is_up {
        driver.interrupt();
    }
}

/// Compares the frames that the driver received with those that arrived.
fn compare(received: &[Vec<u8>], arrived: usize) {
    if let Some(number) = (0..received.len()).find(|&number| received[number] != frame_of(number)) {
        fail(&format!("other bytes were received instead of frame {number}"));
    }
    if received.len() < arrived {
        fail(&format!("frame {} was never received", received.len()));
    }
}

/// In each round, the handler is called when one frame is finished and another one is waiting.
fn main() {
    let words: Vec<String> = std::env::args().skip(1).collect();
    let is_right = match words.join(" ").as_str() {
        "right" => true,
        "wrong" => false,
        _ => fail("usage: receive_test right|wrong"),
    };
    let mut driver = Driver { adapter: Adapter { line_is_up: false }, received: vec![], is_right, next: 0 };
    driver.bring_up();
    for number in (0..12).step_by(2) {
        arrive(&mut driver.adapter, number);
        driver.adapter.ask("settle");
        arrive(&mut driver.adapter, number + 1);
        handle(&mut driver);
        driver.adapter.ask("settle");
        handle(&mut driver);
        compare(&driver.received, number + 2);
    }
}
