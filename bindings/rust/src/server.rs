// An adapter that is served in process: each line of `nicbench serve` is answered by a call.

use std::ptr::null_mut;

use crate::*;

/// The address of the first register, by default.
pub const REGISTERS: u64 = 0xFEB0_0000;

/// The number by which `nic82540em_deviate` lets the oldest offered frame arrive.
const OFFERED: u32 = 6;

/// What a line is in a schedule.
#[derive(Clone, Copy, Debug, PartialEq, Eq)]
pub enum Comes {
    /// A read of a register or of memory, from this address on.
    Read(u64),
    /// A write of a register or of memory, from this address on.
    Write(u64),
    /// `arrive`.
    Arrive,
    /// `offer`.
    Offer,
    /// `step`.
    Step,
    /// `settle`.
    Settle,
    /// `choose`, with this limit.
    Choose(u32),
}

/// The place of a line in a schedule.
#[derive(Clone, Debug, PartialEq, Eq)]
pub struct Place {
    /// What the line is.
    pub comes: Comes,
    /// The number of its round.
    pub round: u32,
    /// The number of its access in the round, from 1; 0: the line begins the round.
    pub access: u32,
    /// Its name in schedules, such as `ICR`, `rx[1]+8` or `settle`.
    pub name: String,
}

/// What may be played between two lines.
#[derive(Clone, Copy, Debug, PartialEq, Eq)]
pub enum Deviation {
    /// A step of this kind.
    Step(Step),
    /// The arrival of the oldest offered frame.
    Arrival,
}

impl Deviation {
    /// All of them.
    pub const ALL: [Deviation; 7] = [
        Deviation::Step(Step::TxTake),
        Deviation::Step(Step::TxPut),
        Deviation::Step(Step::RxData),
        Deviation::Step(Step::RxDone),
        Deviation::Step(Step::Eeprom),
        Deviation::Step(Step::Phy),
        Deviation::Arrival,
    ];

    fn number(self) -> u32 {
        match self {
            Deviation::Step(kind) => kind as u32,
            Deviation::Arrival => OFFERED,
        }
    }

    fn bit(self) -> u32 {
        match self {
            Deviation::Step(kind) => 1 << kind as u32,
            Deviation::Arrival => 1 << 31,
        }
    }
}

#[repr(C)]
#[derive(Default)]
pub(crate) struct RawComing {
    kind: u32,
    round: u32,
    access: u32,
    address: u64,
    limit: u32,
}

impl RawComing {
    fn comes(&self) -> Option<Comes> {
        Some(match self.kind {
            1 => Comes::Read(self.address),
            2 => Comes::Write(self.address),
            3 => Comes::Arrive,
            4 => Comes::Offer,
            5 => Comes::Step,
            6 => Comes::Settle,
            7 => Comes::Choose(self.limit),
            _ => return None,
        })
    }
}

/// An adapter that is served in process. It is freed when it is dropped.
///
/// ```
/// use nic82540em::{Options, Server, REGISTERS};
///
/// let mut server = Server::new(&Options::default(), REGISTERS, 0).unwrap();
/// assert_eq!(server.answer(b"writel 0xFEB000D0 0x80").unwrap(), b"OK\n");
/// assert_eq!(server.answer(b"writel 0xFEB000C8 0x80").unwrap(), b"IRQ raise 0\nOK\n");
/// assert_eq!(server.comes(b"readl 0xFEB000C0").unwrap().name, "ICR");
/// ```
///
/// If memory is refused in a call, the server is dead: from then on, its calls return `Error::NoMemory`, `None` or
/// `false`, and do nothing. All its calls must come from one thread, so it is neither `Send` nor `Sync`.
pub struct Server {
    handle: Handle,
}

impl Server {
    /// Makes an adapter of these options and its server. `registers` is the address of the first register, and `seed`
    /// the seed of `interleave`. Returns an error if an option is out of range, or memory is refused.
    pub fn new(options: &Options, registers: u64, seed: u64) -> Result<Server, Error> {
        let mut handle = Handle { held: false, state: null_mut() };
        if unsafe { nic82540em_serve(&mut handle, &options.into(), registers, seed) } {
            Ok(Server { handle })
        } else {
            Err(Error::New)
        }
    }

    /// Answers a line, without its line feed. Returns what `nicbench serve` writes for it, and before it what was told
    /// of [`deviate`](Server::deviate) since the answer before. Returns an error if memory is refused.
    pub fn answer(&mut self, line: &[u8]) -> Result<Vec<u8>, Error> {
        let length = unsafe { nic82540em_answer(&mut self.handle, line.as_ptr(), line.len(), [].as_mut_ptr(), 0) };
        if length == 0 {
            return Err(Error::NoMemory);
        }
        let mut told = vec![0; length];
        unsafe { nic82540em_told(&mut self.handle, told.as_mut_ptr(), length) };
        Ok(told)
    }

    /// Returns what a line would be in a schedule if it came now, or `None` if it would be no place of a schedule. The
    /// line isn't answered.
    pub fn comes(&mut self, line: &[u8]) -> Option<Place> {
        let (mut coming, mut name) = (RawComing::default(), [0; MOST_NAME_BYTES]);
        let into = (name.as_mut_ptr(), name.len());
        let length = unsafe {
            nic82540em_comes(&mut self.handle, line.as_ptr(), line.len(), &mut coming, into.0, into.1)
        };
        let name = String::from_utf8_lossy(&name[..length]).into_owned();
        Some(Place { comes: coming.comes()?, round: coming.round, access: coming.access, name })
    }

    /// Returns whether a deviation would do something now.
    pub fn can(&mut self, deviation: Deviation) -> bool {
        unsafe { nic82540em_can(&mut self.handle) & deviation.bit() != 0 }
    }

    /// Plays a deviation. Returns whether it did something. What `nicbench serve` would write about it comes before the
    /// next answer.
    pub fn deviate(&mut self, deviation: Deviation) -> bool {
        unsafe { nic82540em_deviate(&mut self.handle, deviation.number()) }
    }

    /// The next request `choose` is answered by this number if it is below the limit, or else by 0. While steps are
    /// random, its answer is random.
    pub fn answers(&mut self, number: u32) -> bool {
        unsafe { nic82540em_answers(&mut self.handle, number) }
    }

    /// Returns a digest of the adapter's state, as [`Nic::state_digest`].
    pub fn state_digest(&mut self, seed: u64) -> u64 {
        unsafe { nic82540em_server_digest(&mut self.handle, seed) }
    }
}

impl Drop for Server {
    fn drop(&mut self) {
        unsafe { nic82540em_close(&mut self.handle) }
    }
}
