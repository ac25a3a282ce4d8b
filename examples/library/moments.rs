//! A driver reads a word of the EEPROM, which answers at a moment that the test chooses, as in moments.c.

use nic82540em::{Error, IMAGE_WORDS, Nic, Options, Request, Step, registers::EERD};

const START: u32 = 1 << 0;
const DONE: u32 = 1 << 4;
const MOST_READS: u64 = 4;
const SCHEDULE: &str = "1.1 choose 2 before choose
1.3 hold eeprom before read EERD
1.4 hold eeprom before read EERD
";

/// Chooses the moments of steps.
type Way = fn(&mut Nic) -> Result<(), Error>;

const WAYS: [(&str, Way); 6] = [
    ("no steps", |_| Ok(())),
    ("ticks", |nic| {
        nic.ticks(true);
        Ok(())
    }),
    ("pace", |nic| nic.pace(10)),
    ("schedule", |nic| nic.schedule(3, Step::Eeprom)),
    ("interleave", |nic| nic.interleave(2, 7)),
    ("play", |nic| {
        nic.play(SCHEDULE)?;
        nic.begin_round(Request::Settle);
        nic.settle();
        Ok(())
    }),
];

/// The driver. Returns a text with the word, and with the number of the read that returned it.
fn read_word(nic: &mut Nic) -> String {
    let (word, mut value) = (nic.choose(3), 0);
    nic.recount(0); // the write is access 0, and the reads are accesses 1 to 4
    nic.write(EERD, word << 8 | START);
    while value & DONE == 0 && nic.accesses() <= MOST_READS {
        value = nic.read(EERD);
    }
    if value & DONE == 0 {
        return format!("word {word} isn't returned");
    }
    format!("read {} returns word {word}, {:04x}", nic.accesses() - 1, value >> 16)
}

fn main() -> Result<(), Error> {
    let image: [u16; IMAGE_WORDS] = std::array::from_fn(|place| 0xE000 + place as u16);
    for (name, choose_moments) in WAYS {
        let mut nic = Nic::new(&Options { image: Some(image), ..Options::default() })?;
        choose_moments(&mut nic)?;
        println!("{name}: {}", read_word(&mut nic));
    }
    Ok(())
}
