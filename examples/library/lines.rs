//! Lines of a test for `nicbench serve`, answered in process, as in lines.c.

use nic82540em::{registers, Comes, Deviation, Error, Nic, Options, Server, REGISTERS};

const ICR: &str = "readl 0xFEB000C0";

/// Lets offered frames arrive, and the adapter take steps, until there is nothing to do. Returns their number.
fn deviate(server: &mut Server) -> usize {
    let mut done = 0;
    while let Some(next) = Deviation::ALL.into_iter().find(|one| server.can(*one)) {
        done += usize::from(server.deviate(next));
    }
    done
}

fn main() -> Result<(), Error> {
    let offer = format!("offer ffffffffffff0200000000010800{}", "00".repeat(46));
    let lines = [
        "writel 0xFEB02800 0x1000",
        "writel 0xFEB02808 128",
        "writel 0xFEB02818 7",
        "writel 0xFEB00100 0x8002",
        "writel 0xFEB000D0 0x80",
        "choose 5",
        &offer,
        ICR,
        ICR,
        "read 0x1008 5",
        "bogus",
    ];
    let mut server = Server::new(&Options::default(), REGISTERS, 0)?;
    for (number, line) in lines.iter().enumerate() {
        let before = server.state_digest(1);
        let place = server.comes(line.as_bytes());
        match &place {
            Some(place) => print!("{}.{} {}:", place.round, place.access, place.name),
            None => print!("no place:"),
        }
        if place.is_some_and(|place| matches!(place.comes, Comes::Choose(_))) {
            server.answers(3);
        }
        if server.state_digest(1) != before {
            print!(" the adapter changed");
        }
        if *line == ICR && lines[..number].contains(&ICR) {
            print!(" {} steps and arrivals,", deviate(&mut server));
        }
        let text = server.answer(line.as_bytes())?;
        for told in String::from_utf8_lossy(&text).lines() {
            print!(" {told};");
        }
        println!();
    }
    // In process, the calls have no lines, but the same names.
    println!("{}", Nic::new(&Options::default())?.register_name(registers::ICR));
    Ok(())
}
