//! Accesses of a driver over pipes to `nicbench serve` (docs/SERVE.md). usage: first PROGRAM

use std::io::{BufRead, BufReader, Write};
use std::process::{Child, ChildStdin, ChildStdout, Command, Stdio};

const REGISTERS: u64 = 0xFEB0_0000;
const ICR: u64 = 0x00C0;
const ICS: u64 = 0x00C8;
const IMS: u64 = 0x00D0;
const RXT0: u32 = 0x80;

struct Adapter {
    server: Child,
    requests: ChildStdin,
    answers: BufReader<ChildStdout>,
}

impl Adapter {
    /// Starts the server.
    fn start(program: &str) -> std::io::Result<Adapter> {
        let mut server = Command::new(program)
            .args(["serve", "--seed", "7"])
            .stdin(Stdio::piped())
            .stdout(Stdio::piped())
            .spawn()?;
        let requests = server.stdin.take().expect("the server has an input");
        let answers = BufReader::new(server.stdout.take().expect("the server has an output"));
        Ok(Adapter { server, requests, answers })
    }

    /// Returns the answer to a request without its OK. Prints the lines before the answer.
    fn ask(&mut self, request: &str) -> std::io::Result<String> {
        let mut line = String::new();
        writeln!(self.requests, "{request}")?;
        while self.answers.read_line(&mut line)? > 0 {
            if let Some(answer) = line.strip_prefix("OK") {
                return Ok(answer.trim().to_string());
            }
            print!("{line}"); // IRQ raise 0, ERR ..., after `events on` also frame ...
            if line.starts_with("ERR") || line.starts_with("FAIL") {
                break;
            }
            line.clear();
        }
        Err(std::io::Error::other(format!("{request}: no answer with OK")))
    }

    fn read(&mut self, register: u64) -> std::io::Result<u32> {
        let answer = self.ask(&format!("readl {:#x}", REGISTERS + register))?;
        u32::from_str_radix(answer.trim_start_matches("0x"), 16).map_err(std::io::Error::other)
    }

    fn write(&mut self, register: u64, value: u32) -> std::io::Result<()> {
        self.ask(&format!("writel {:#x} {value:#x}", REGISTERS + register))?;
        Ok(())
    }

    /// Ends the server's input, and so the server.
    fn end(self) -> std::io::Result<()> {
        let Adapter { mut server, requests, .. } = self;
        drop(requests);
        server.wait()?;
        Ok(())
    }
}

fn main() -> std::io::Result<()> {
    let program = std::env::args().nth(1).expect("usage: first PROGRAM");
    let mut adapter = Adapter::start(&program)?;
    adapter.write(IMS, RXT0)?; // unmask RXT0
    adapter.write(ICS, RXT0)?; // record RXT0
    println!("{:08x}", adapter.read(ICR)?);
    adapter.end()
}
