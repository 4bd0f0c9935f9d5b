//! Standard output, complaints on standard error, progress.

use std::fs::File;
use std::io::{self, BufWriter, IsTerminal, Write};
use std::os::fd::AsFd;

/// Standard output. An error of it ends the program; nothing is printed by `println!`, which would
/// panic, or by `io::stdout()`, which drops what cannot be written at all.
pub struct Out {
    stdout: BufWriter<File>,
    /// Lines of JSON are asked for.
    pub json: bool,
}

impl Out {
    pub fn new() -> io::Result<Out> {
        let stdout = File::from(io::stdout().as_fd().try_clone_to_owned()?);
        let (stdout, json) = (BufWriter::with_capacity(1 << 16, stdout), false);
        Ok(Out { stdout, json })
    }

    /// A sentence on standard error, behind all that was printed so far.
    pub fn complain(&mut self, sentence: &str) -> io::Result<()> {
        self.finish()?;
        complain(sentence);
        Ok(())
    }

    /// Brings out all that was printed.
    pub fn finish(&mut self) -> io::Result<()> {
        self.stdout.flush()
    }
}

impl Write for Out {
    fn write(&mut self, bytes: &[u8]) -> io::Result<usize> {
        self.stdout.write(bytes)
    }

    fn flush(&mut self) -> io::Result<()> {
        self.finish()
    }
}

/// A sentence on standard error; where that cannot be written there is nobody to tell.
pub fn complain(sentence: &str) {
    let _ = writeln!(io::stderr(), "depot-wal: {sentence}");
}

/// How far a long file has been read, on a terminal that shows nothing else.
pub struct Progress {
    total: usize,
    shown: Option<usize>,
    wanted: bool,
}

const MIB: usize = 1 << 20;

impl Progress {
    pub fn new(total: usize) -> Progress {
        let alone = io::stderr().is_terminal() && !io::stdout().is_terminal();
        let (shown, wanted) = (None, alone && total >= MIB);
        Progress {
            total,
            shown,
            wanted,
        }
    }

    /// Shows the place, if a MiB more was read.
    #[inline]
    pub fn at(&mut self, place: usize) {
        if self.wanted && self.shown != Some(place / MIB) {
            self.shown = Some(place / MIB);
            let (done, total) = (place / MIB, self.total.div_ceil(MIB));
            let _ = write!(io::stderr(), "\r{done} of {total} MiB");
        }
    }
}

impl Drop for Progress {
    /// Wipes the line.
    fn drop(&mut self) {
        if self.shown.is_some() {
            let _ = write!(io::stderr(), "\r{:30}\r", "");
        }
    }
}
