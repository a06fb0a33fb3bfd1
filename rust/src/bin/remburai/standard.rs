//! Standard input and output. Whatever is written is known to be written, or it is a fault.
//!
//! Before `main` begins, Rust's runtime opens /dev/null in place of a standard input or output that is closed; and the handle of
//! `std::io::stdout` takes a write to a descriptor that cannot be written for done. Either would lose an answer without a sign. So a
//! function that runs before the runtime notes what is closed, and all is written through a file of its own.
use crate::status::{fault, Stop};
use std::fmt::Display;
use std::fs::File;
use std::io::{self, BufWriter, ErrorKind, Write};
use std::os::fd::AsFd;
use std::sync::atomic::{AtomicBool, Ordering};

static INPUT_CLOSED: AtomicBool = AtomicBool::new(false);
static OUTPUT_CLOSED: AtomicBool = AtomicBool::new(false);

#[used]
#[link_section = ".init_array"]
static BEFORE_MAIN: extern "C" fn() = note_closed;

extern "C" fn note_closed() {
    let closed = |stream: &dyn AsFd| stream.as_fd().try_clone_to_owned().is_err();
    INPUT_CLOSED.store(closed(&io::stdin()), Ordering::Relaxed);
    OUTPUT_CLOSED.store(closed(&io::stdout()), Ordering::Relaxed);
}

/// Standard input, unless it was closed when the command began.
pub fn input() -> Result<File, Stop> {
    if INPUT_CLOSED.load(Ordering::Relaxed) {
        return Err(Stop::Fault("standard input is closed".to_string()));
    }
    let owned = io::stdin().as_fd().try_clone_to_owned();
    Ok(owned.map_err(|why| fault("standard input", why))?.into())
}

/// Standard output.
pub struct Output {
    to: BufWriter<File>,
}

impl Output {
    /// Standard output, unless it was closed when the command began.
    pub fn open() -> Result<Output, Stop> {
        if OUTPUT_CLOSED.load(Ordering::Relaxed) {
            return Err(Stop::Fault("standard output is closed".to_string()));
        }
        let file = File::from(
            io::stdout()
                .as_fd()
                .try_clone_to_owned()
                .map_err(unwritten)?,
        );
        Ok(Output {
            to: BufWriter::with_capacity(1 << 16, file),
        })
    }

    /// Writes a line.
    pub fn line(&mut self, line: impl Display) -> Result<(), Stop> {
        writeln!(self.to, "{line}").map_err(unwritten)
    }

    /// Writes bytes as they are.
    pub fn bytes(&mut self, bytes: &[u8]) -> Result<(), Stop> {
        self.to.write_all(bytes).map_err(unwritten)
    }

    /// Writes what is still held back.
    pub fn flush(&mut self) -> Result<(), Stop> {
        self.to.flush().map_err(unwritten)
    }
}

fn unwritten(why: io::Error) -> Stop {
    match why.kind() {
        ErrorKind::BrokenPipe => Stop::Silent,
        _ => fault("standard output cannot be written", why),
    }
}

/// Says something on standard error, if that can be.
pub fn say(line: impl Display) {
    let _ = writeln!(io::stderr(), "remburai: {line}");
}
