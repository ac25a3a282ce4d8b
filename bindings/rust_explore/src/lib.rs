//! Searches the schedules of a driver's test, in the process of the test. If the test panics, it fails.
//!
//! ```no_run
//! use nic82540em_explore::{explore, Arena, Bus, Explored};
//!
//! #[global_allocator]
//! static ARENA: Arena = Arena;
//!
//! fn main() {
//!     std::process::exit(explore(|mut bus: Explored| {
//!         bus.write(0xD0, 0x80);
//!         bus.settle();
//!         assert_eq!(bus.read(0xC0), 0);
//!     }));
//! }
//! ```
//!
//! All memory that the test writes is a part of its state: its stack, its heap with any allocator that calls `malloc`,
//! statics and thread-local variables. The test must use no threads, files, clock or random numbers. Options are words
//! of the program. Without options, the variables NIC_EXPLORE, NIC_REPLAY, NIC_OUT and NIC_SERVE are used.
//! `nic82540em_explore.h` and `--help` describe both.

use std::alloc::{GlobalAlloc, Layout, System};
use std::env::var_os;
use std::ffi::{c_char, c_int, c_void, CString};
use std::io::{BufRead, BufReader};
use std::os::fd::AsRawFd;
use std::os::unix::ffi::OsStringExt;
use std::os::unix::net::UnixStream;
use std::panic::{catch_unwind, set_hook, AssertUnwindSafe};
use std::sync::Mutex;

extern "C" {
    fn nic82540em_explore(
        count: c_int,
        words: *const *const c_char,
        test: extern "C" fn(*mut c_void) -> *const c_char,
        argument: *mut c_void,
    ) -> c_int;
    fn x_read(offset: u32) -> u32;
    fn x_write(offset: u32, value: u32);
    fn x_load(address: u64, into: *mut c_void, count: usize);
    fn x_store(address: u64, bytes: *const c_void, count: usize);
    fn x_arrive(frame: *const c_void, count: usize) -> u32;
    fn x_offer(frame: *const c_void, count: usize);
    fn x_step(kind: u32) -> u32;
    fn x_settle() -> u64;
    fn x_line() -> bool;
    fn x_put_count() -> u32;
    fn x_put(number: u32, into: *mut c_void, room: usize) -> usize;
    fn x_forget();
    fn x_memory(size: usize) -> *mut c_void;
    fn x_inside() -> bool;
    fn dup2(file: c_int, other: c_int) -> c_int;
    fn fork() -> c_int;
    fn getpid() -> c_int;
    fn getppid() -> c_int;
    fn prctl(option: c_int, ...) -> c_int;
    fn waitpid(child: c_int, status: *mut c_int, options: c_int) -> c_int;
    fn fflush(file: *mut c_void) -> c_int;
    fn _exit(status: c_int) -> !;
}

/// The accesses of a driver to its adapter and its host's memory. Another implementation may use a real adapter.
pub trait Bus {
    /// Reads the register at an offset in bytes.
    fn read(&mut self, offset: u32) -> u32;
    /// Writes the register at an offset in bytes.
    fn write(&mut self, offset: u32, value: u32);
    /// Loads bytes of the host's memory from an address on into the whole of `into`.
    fn load(&mut self, address: u64, into: &mut [u8]);
    /// Stores bytes in the host's memory from an address on.
    fn store(&mut self, address: u64, bytes: &[u8]);
}

/// The adapter whose schedules are searched, and the requests of the test. Copies are the same adapter.
#[derive(Clone, Copy)]
pub struct Explored(());

/// The fate of a frame that was stored in the receive packet buffer (`NIC_STORED`).
pub const STORED: u32 = 4;
/// The kinds of steps of the engines (`NIC_TXTAKE` to `NIC_RXDONE`).
pub const TXTAKE: u32 = 0;
pub const TXPUT: u32 = 1;
pub const RXDATA: u32 = 2;
pub const RXDONE: u32 = 3;

impl Bus for Explored {
    fn read(&mut self, offset: u32) -> u32 {
        unsafe { x_read(offset) }
    }

    fn write(&mut self, offset: u32, value: u32) {
        unsafe { x_write(offset, value) }
    }

    fn load(&mut self, address: u64, into: &mut [u8]) {
        unsafe { x_load(address, into.as_mut_ptr().cast(), into.len()) }
    }

    fn store(&mut self, address: u64, bytes: &[u8]) {
        unsafe { x_store(address, bytes.as_ptr().cast(), bytes.len()) }
    }
}

impl Explored {
    /// Lets a frame, without its checksum, arrive. Returns the number of its fate.
    pub fn arrive(&mut self, frame: &[u8]) -> u32 {
        unsafe { x_arrive(frame.as_ptr().cast(), frame.len()) }
    }

    /// Offers a frame, without its checksum, which arrives in the next `settle`, or earlier by the schedule.
    pub fn offer(&mut self, frame: &[u8]) {
        unsafe { x_offer(frame.as_ptr().cast(), frame.len()) }
    }

    /// Makes the adapter take a step of this kind. Returns the number of the outcome.
    pub fn step(&mut self, kind: u32) -> u32 {
        unsafe { x_step(kind) }
    }

    /// Lets all offered frames arrive, and plays cycles of steps until one does nothing. Returns the number of steps
    /// that did something.
    pub fn settle(&mut self) -> u64 {
        unsafe { x_settle() }
    }

    /// Returns whether the interrupt line is asserted.
    pub fn line(&self) -> bool {
        unsafe { x_line() }
    }

    /// Returns the frames that were put on the wire since the last `forget`, the oldest first.
    pub fn put(&self) -> Vec<Vec<u8>> {
        let one = |number| {
            let mut frame = vec![0; 1518];
            let count = unsafe { x_put(number, frame.as_mut_ptr().cast(), frame.len()) };
            frame.truncate(count);
            frame
        };
        (0..unsafe { x_put_count() }).map(one).collect()
    }

    /// Forgets the frames that were put on the wire, and those that arrived. Call `forget` after they were compared.
    pub fn forget(&mut self) {
        unsafe { x_forget() }
    }
}

/// An allocator: while the test runs, it returns memory that is a part of the test's state, and otherwise the system's
/// memory. Memory of the test's state isn't used again after it is freed.
pub struct Arena;

/// The first address of the explorer's arena, where all memory of the test's state is; and that of the test's stack.
const BEGIN: usize = 0x2000_0000_0000;
const END: usize = 0x2010_0000_0000;

unsafe impl GlobalAlloc for Arena {
    unsafe fn alloc(&self, layout: Layout) -> *mut u8 {
        if x_inside() {
            // a block of x_memory is aligned to 64 bytes
            x_memory(layout.size().max(1)).cast()
        } else {
            System.alloc(layout)
        }
    }

    unsafe fn dealloc(&self, block: *mut u8, layout: Layout) {
        if !(BEGIN..END).contains(&(block as usize)) {
            System.dealloc(block, layout)
        }
    }
}

extern "C" fn run<T: Fn(Explored)>(test: *mut c_void) -> *const c_char {
    let test = unsafe { &*(test as *const T) };
    match catch_unwind(AssertUnwindSafe(|| test(Explored(())))) {
        Ok(()) => std::ptr::null(),
        Err(panic) => {
            let text = panic.downcast_ref::<String>().map(String::as_str);
            let text = text.or(panic.downcast_ref::<&str>().copied()).unwrap_or("the test panics");
            let line: String = text.split_whitespace().collect::<Vec<_>>().join(" ").chars().take(100).collect();
            CString::new(line).map_or(c"the test panics".as_ptr(), |text| text.into_raw().cast_const())
        }
    }
}

/// Searches the schedules of a test, as the words of the program ask for. Returns the exit status.
pub fn explore<T: Fn(Explored)>(test: T) -> i32 {
    explore_by(std::env::args().map(String::into_bytes), &test)
}

/// Searches the schedules of a test in a test of `cargo test`, as the variables NIC_EXPLORE, NIC_REPLAY, NIC_OUT and
/// NIC_SERVE ask for. Returns whether the exit status is 0. Each search has a process of its own, so there may be
/// several tests, which run at the same time.
///
/// The report is the output of the test: `cargo test` prints it if the test fails, and always after `-- --show-output`.
/// It contains the command that plays the schedule again, such as `NIC_REPLAY=FILE cargo test NAME -- --exact`. With
/// NIC_LOG=1, this command prints each access and each step.
pub fn explored<T: Fn(Explored)>(test: T) -> bool {
    let command = match std::thread::current().name() {
        Some("main") | None => "cargo test".to_owned(), // of one thread, which runs all tests
        Some(name) => format!("cargo test {name} -- --exact"),
    };
    let mut words = vec![command.clone().into_bytes()];
    if let (Some(file), Some(_)) = (var_os("NIC_REPLAY"), var_os("NIC_LOG")) {
        words.extend([b"--replay".to_vec(), file.into_vec(), b"--log".to_vec()]);
    }
    let show = |line: &str| for_cargo(line, &command).into_iter().for_each(|line| println!("{line}"));
    in_process(|| explore_by(words.iter().cloned(), &test), show) == 0
}

/// A line of the report as `cargo test` needs it: with variables in place of options. There is none for the line of a
/// chart, since `cargo test` prints other texts on its standard output, too.
fn for_cargo(line: &str, command: &str) -> Option<String> {
    if line.starts_with("For its chart:") {
        return None;
    }
    if let Some((before, path)) = line.split_once(&format!("{command} --replay ")) {
        return Some(format!("{before}NIC_REPLAY={path} {command}"));
    }
    Some(line.replace("the same with --log", "the same with NIC_LOG=1"))
}

/// Runs a search in a new process, which ends with this thread. Shows each line of its standard output, and returns its
/// exit status. The explorer uses fixed addresses, signal handlers and variables of its process.
fn in_process(search: impl Fn() -> i32, show: impl Fn(&str)) -> i32 {
    // so that no other search has the end of this pipe that is written
    static FORKS: Mutex<()> = Mutex::new(());
    let forks = FORKS.lock().unwrap_or_else(|error| error.into_inner());
    let (lines, output) = UnixStream::pair().expect("no pipe for the search");
    let child = unsafe { forked(&search, output.as_raw_fd()) };
    drop(output);
    drop(forks);
    for line in BufReader::new(lines).split(b'\n') {
        show(&String::from_utf8_lossy(&line.expect("the output of the search can't be read")));
    }
    let mut status = 0;
    while unsafe { waitpid(child, &mut status, 0) } != child {
        let error = std::io::Error::last_os_error();
        assert!(error.kind() == std::io::ErrorKind::Interrupted, "no status of the search: {error}");
    }
    match status & 0x7F {
        0 => status >> 8 & 0xFF,
        signal => 128 + signal,
    }
}

/// Starts a process that searches, and ends with this thread. `output` is its standard output. Returns its number.
unsafe fn forked(search: &impl Fn() -> i32, output: c_int) -> c_int {
    const PR_SET_PDEATHSIG: c_int = 1;
    const SIGTERM: c_int = 15;
    fflush(std::ptr::null_mut());
    let (parent, child) = (getpid(), fork());
    if child == 0 {
        prctl(PR_SET_PDEATHSIG, SIGTERM);
        if getppid() != parent || dup2(output, 1) != 1 {
            _exit(128 + SIGTERM);
        }
        let ended = search();
        fflush(std::ptr::null_mut());
        _exit(ended);
    }
    assert!(child > 0, "no process for the search: {}", std::io::Error::last_os_error());
    child
}

fn explore_by<T: Fn(Explored)>(words: impl Iterator<Item = Vec<u8>>, test: &T) -> i32 {
    let words: Vec<CString> = words.map(|word| CString::new(word).expect("a word has a null byte")).collect();
    let pointers: Vec<*const c_char> = words.iter().map(|word| word.as_ptr()).collect();
    set_hook(Box::new(|_| {}));
    let test: *const T = test;
    unsafe { nic82540em_explore(pointers.len() as c_int, pointers.as_ptr(), run::<T>, test as *mut c_void) }
}
