//! Finds whether the order of a step and an access of the driver matters, as both_orders.c does.

use nic82540em::{Error, Nic, Options, Step, registers};

const RECEIVE_RING: u64 = 0x1000;
const TRANSMIT_RING: u64 = 0x2000;
const STATUS: u64 = 12;
const BUFFER: u64 = 0x4000;
/// The low bytes of the buffer's address; the length; EOP and RS.
const DESCRIPTOR: [u8; 16] = [0, 0x40, 0, 0, 0, 0, 0, 0, 60, 0, 0, 1 << 0 | 1 << 3, 0, 0, 0, 0];
const EN: u32 = 1 << 1;
const BAM: u32 = 1 << 15;

/// Makes an access of the driver. Returns the value that it reads, or 0 if it reads none.
type Access = fn(&mut Nic) -> Result<u32, Error>;

const ACCESSES: [(&str, Access); 4] = [
    ("read ICR", |nic| Ok(nic.read(registers::ICR))),
    ("load status", |nic| {
        let mut status = [0];
        nic.load(TRANSMIT_RING + STATUS, &mut status)?;
        Ok(status[0].into())
    }),
    ("write RCTL", |nic| {
        nic.write(registers::RCTL, 0);
        Ok(0)
    }),
    ("store in buffer", |nic| nic.store(BUFFER, &[0x55]).map(|()| 0)),
];

/// Tries both orders in copies of the adapter, and returns what differs.
fn difference(nic: &mut Nic, kind: Step, access: Access) -> Result<&'static str, Error> {
    let (mut first, mut second) = (nic.copy()?, nic.copy()?);
    first.step(kind);
    if access(&mut first)? != access(&mut second)? {
        return Ok("value");
    }
    second.step(kind);
    if first.state_digest(0) != second.state_digest(0) {
        return Ok("state");
    }
    Ok(if first.digest() == second.digest() { "nothing" } else { "memory" })
}

fn main() -> Result<(), Error> {
    let mut nic = Nic::new(&Options::default())?;
    nic.store(RECEIVE_RING, &DESCRIPTOR)?;
    nic.store(TRANSMIT_RING, &[DESCRIPTOR, DESCRIPTOR].concat())?;
    for (register, value) in [
        (registers::RDBAL, RECEIVE_RING as u32),
        (registers::RDLEN, 128),
        (registers::RCTL, EN | BAM),
        (registers::RDT, 1),
        (registers::TDBAL, TRANSMIT_RING as u32),
        (registers::TDLEN, 128),
        (registers::TCTL, EN),
        (registers::TDT, 2),
    ] {
        nic.write(register, value);
    }
    nic.arrive(&[0xFF; 60]);
    nic.step(Step::TxTake);
    for (name, access) in ACCESSES {
        for kind in Step::ALL {
            if nic.is_possible(kind) {
                let found = difference(&mut nic, kind, access)?;
                println!("{name}, {}: {found} differs", format!("{kind:?}").to_lowercase());
            }
        }
    }
    Ok(())
}
