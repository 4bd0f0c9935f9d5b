//! Logs made by hand after docs/FORMAT.md, without the library; the command, run; JSON, checked.

pub mod json;
pub mod log;

use std::fs;
use std::io::Write;
use std::path::{Path, PathBuf};
use std::process::{Command, Stdio};
use std::sync::atomic::{AtomicU32, Ordering};

/// A folder of its own for a test, in which the command is run.
pub struct Folder(PathBuf);

/// What a run gave.
pub struct Run {
    pub status: i32,
    pub out: String,
    pub err: String,
}

impl Folder {
    pub fn new() -> Folder {
        static NUMBER: AtomicU32 = AtomicU32::new(0);
        let number = NUMBER.fetch_add(1, Ordering::Relaxed);
        let name = format!("depot-wal-test-{}-{number}", std::process::id());
        let path = std::env::temp_dir().join(name);
        fs::create_dir(&path).unwrap();
        Folder(path)
    }

    /// A folder with one file.
    pub fn with(name: &str, bytes: &[u8]) -> Folder {
        let folder = Folder::new();
        folder.put(name, bytes);
        folder
    }

    pub fn path(&self, name: &str) -> PathBuf {
        self.0.join(name)
    }

    pub fn put(&self, name: &str, bytes: &[u8]) {
        fs::write(self.path(name), bytes).unwrap();
    }

    pub fn get(&self, name: &str) -> Vec<u8> {
        fs::read(self.path(name)).unwrap()
    }

    /// The names of its files.
    pub fn names(&self) -> Vec<String> {
        let entries = fs::read_dir(&self.0).unwrap();
        let name = |entry: fs::DirEntry| entry.file_name().into_string().unwrap();
        let mut names: Vec<String> = entries.map(|entry| name(entry.unwrap())).collect();
        names.sort();
        names
    }

    /// The command, not yet run.
    pub fn command(&self, words: &[&str]) -> Command {
        let mut command = Command::new(env!("CARGO_BIN_EXE_depot-wal"));
        command
            .args(words)
            .current_dir(&self.0)
            .stdin(Stdio::null());
        command
    }

    pub fn run(&self, words: &[&str]) -> Run {
        Run::of(self.command(words))
    }

    /// Runs it with bytes on standard input.
    pub fn run_with(&self, words: &[&str], input: &[u8]) -> Run {
        let mut command = self.command(words);
        command.stdin(Stdio::piped());
        command.stdout(Stdio::piped()).stderr(Stdio::piped());
        let mut child = command.spawn().unwrap();
        let mut stdin = child.stdin.take().unwrap();
        let input = input.to_vec();
        let writer = std::thread::spawn(move || stdin.write_all(&input));
        let output = child.wait_with_output().unwrap();
        let _ = writer.join().unwrap();
        Run::from(output)
    }
}

impl Drop for Folder {
    fn drop(&mut self) {
        let _ = fs::remove_dir_all(&self.0);
    }
}

impl Run {
    pub fn of(mut command: Command) -> Run {
        Run::from(command.output().unwrap())
    }

    fn from(output: std::process::Output) -> Run {
        Run {
            status: output.status.code().expect("no signal ends it"),
            out: String::from_utf8(output.stdout).expect("what is printed is UTF-8"),
            err: String::from_utf8(output.stderr).expect("what is printed is UTF-8"),
        }
    }

    /// It ended well, and printed this.
    #[track_caller]
    pub fn fine(&self, out: &str) {
        assert_eq!((self.out.as_str(), self.err.as_str()), (out, ""));
        assert_eq!(self.status, 0);
    }

    /// It was refused, printed this, and told each of these on standard error.
    #[track_caller]
    pub fn refused(&self, out: &str, told: &[&str]) {
        assert_eq!(self.out, out, "{}", self.err);
        self.told(1, told);
    }

    /// This status, and each of these on standard error, in sentences of one line each.
    #[track_caller]
    pub fn told(&self, status: i32, told: &[&str]) {
        assert_eq!(self.status, status, "{}{}", self.out, self.err);
        for text in told {
            assert!(self.err.contains(text), "not told: {text}\n{}", self.err);
        }
        for line in self.err.lines() {
            assert!(line.starts_with("depot-wal: "), "{line}");
        }
    }

    /// Every line is JSON; hands them back parsed.
    #[track_caller]
    pub fn json(&self) -> Vec<json::Json> {
        let parse = |line: &str| json::parse(line).unwrap_or_else(|why| panic!("{why}: {line}"));
        self.out.lines().map(parse).collect()
    }
}

/// A file of zeros that takes no room on the disk.
pub fn sparse(path: &Path, len: u64) {
    fs::File::create(path).unwrap().set_len(len).unwrap();
}
