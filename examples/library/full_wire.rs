//! Back-pressure of a full wire, and of a receive ring without offered descriptors, as in full_wire.c.

use nic82540em::{Error, Nic, Options, registers};

const RECEIVE_RING: usize = 0x1000;
const TRANSMIT_RING: usize = 0x2000;
const FRAME_BYTES: usize = 60;
const FRAMES: usize = 7;
const OFFERED: usize = 27;
/// The low bytes of the buffer's address; the length; EOP and RS.
const DESCRIPTOR: [u8; 16] = [0, 0x40, 0, 0, 0, 0, 0, 0, FRAME_BYTES as u8, 0, 0, 1 << 0 | 1 << 3, 0, 0, 0, 0];
const TXDW: u32 = 1 << 0;
const RXO: u32 = 1 << 6;
const EN: u32 = 1 << 1;
const BAM: u32 = 1 << 15;

/// Lets the adapter do its work, and prints where the frames are.
fn settle(nic: &mut Nic, name: &str) {
    nic.settle();
    let (received, transmit) = nic.waiting();
    let (head, missed, line) = (nic.peek(registers::TDH), nic.peek(registers::MPC), nic.line() as u8);
    print!("{name}: TDH {head}, waiting {transmit} to be sent and {received} received, ");
    println!("MPC {missed:08x}, line {line}");
}

fn main() -> Result<(), Error> {
    // The receive packet buffer has 2 KB, and MPC doesn't wrap.
    let mut nic = Nic::new(&Options { rxa: 2, missed: 0xFFFF_FFFE, ..Options::default() })?;
    for ring in [RECEIVE_RING, TRANSMIT_RING] {
        nic.memory()[ring..ring + 16 * FRAMES].copy_from_slice(&DESCRIPTOR.repeat(FRAMES));
    }
    nic.fill_wire(true);
    for (register, value) in [
        (registers::IMS, TXDW | RXO),
        (registers::RDBAL, RECEIVE_RING as u32),
        (registers::RDLEN, 128),
        (registers::TDBAL, TRANSMIT_RING as u32),
        (registers::TDLEN, 128),
        (registers::RCTL, EN | BAM),
        (registers::TCTL, EN),
        (registers::TDT, FRAMES as u32),
    ] {
        nic.write(register, value);
    }
    settle(&mut nic, "full wire");
    nic.fill_wire(false);
    settle(&mut nic, "free wire");
    let mut count = 0;
    while nic.take_put().is_some() {
        count += 1;
    }
    println!("taken off the wire: {count}, ICR {:08x}", nic.read(registers::ICR));
    for _ in 0..OFFERED {
        nic.offer(&[0xFF; FRAME_BYTES])?;
    }
    settle(&mut nic, "no descriptors");
    nic.write(registers::RDT, FRAMES as u32);
    settle(&mut nic, "descriptors");
    Ok(())
}
