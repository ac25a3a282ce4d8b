//! Prints what happened to an adapter: a frame that was offered, and a transmit descriptor without EOP.

use nic82540em::{Error, Event, Nic, Options, registers};

const BUFFER: u64 = 0x800;
const SLOT: u64 = 16;
const FRAME_BYTES: u8 = 60;
const TXDW: u32 = 1 << 0;
const EN: u32 = 1 << 1;
const EOP: u8 = 1 << 0;
const RS: u8 = 1 << 3;

/// A transmit descriptor of the buffer.
fn descriptor(command: u8) -> Vec<u8> {
    [BUFFER.to_le_bytes(), [FRAME_BYTES, 0, 0, command, 0, 0, 0, 0]].concat()
}

fn text_of(event: Event) -> String {
    match event {
        Event::Stepped(kind, outcome) => format!("step {kind:?} {outcome:?}"),
        Event::Faulted(kind, index, reason) => format!("fault {kind:?} {index} {reason:?}"),
        Event::Arrived(fate) => format!("arrived {fate:?}"),
        Event::Line(is_asserted) => format!("line {is_asserted}"),
    }
}

fn main() -> Result<(), Error> {
    let mut nic = Nic::new(&Options::default())?;
    nic.events(true);
    nic.store(0, &descriptor(EOP | RS))?;
    nic.store(SLOT, &descriptor(RS))?; // EOP is missing
    for (register, value) in
        [(registers::IMS, TXDW), (registers::TDLEN, 128), (registers::TCTL, EN), (registers::TDT, 2)]
    {
        nic.write(register, value);
    }
    nic.offer(&[0xFF; FRAME_BYTES as usize])?;
    nic.settle();
    while let Some(event) = nic.take_event() {
        println!("{}", text_of(event).to_lowercase());
    }
    Ok(())
}
