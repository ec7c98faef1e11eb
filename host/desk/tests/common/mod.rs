//! What the tests of the program share: folders of their own, and the built program.

#![allow(dead_code)]

use std::io::Write;
use std::path::{Path, PathBuf};
use std::process::{Command, Output, Stdio};
use std::sync::atomic::{AtomicUsize, Ordering};
use std::{env, fs, process, thread};

/// A folder that is there for one test.
pub struct Folder(pub PathBuf);

impl Folder {
    pub fn new() -> Folder {
        static COUNT: AtomicUsize = AtomicUsize::new(0);
        let name = format!("desk-{}-{}", process::id(), COUNT.fetch_add(1, Ordering::Relaxed));
        let path = env::temp_dir().join(name);
        fs::create_dir_all(&path).expect("a folder can be made");
        Folder(path)
    }

    pub fn path(&self, name: &str) -> PathBuf {
        self.0.join(name)
    }

    /// Writes a file, with the folders above it.
    pub fn write(&self, name: &str, text: impl AsRef<[u8]>) -> PathBuf {
        let path = self.path(name);
        fs::create_dir_all(path.parent().expect("it is below the folder"))
            .expect("a folder can be made");
        fs::write(&path, text).expect("a file can be written");
        path
    }

    pub fn read(&self, name: &str) -> Vec<u8> {
        fs::read(self.path(name)).unwrap_or_else(|error| panic!("{name}: {error}"))
    }
}

impl Drop for Folder {
    fn drop(&mut self) {
        let _ = fs::remove_dir_all(&self.0);
    }
}

/// What a call of a program came to.
#[derive(Debug)]
pub struct Called {
    pub status: i32,
    pub out: String,
    pub errors: String,
    pub bytes: Vec<u8>,
}

impl From<Output> for Called {
    fn from(output: Output) -> Called {
        Called {
            status: output.status.code().expect("it ends by itself"),
            out: String::from_utf8_lossy(&output.stdout).to_string(),
            errors: String::from_utf8_lossy(&output.stderr).to_string(),
            bytes: output.stdout,
        }
    }
}

/// A call of the built program in a folder.
pub fn program(folder: &Path, words: &[&str]) -> Command {
    let mut command = Command::new(env!("CARGO_BIN_EXE_gorzhani"));
    command.current_dir(folder).args(words);
    command
}

/// Calls the built program in a folder, with these bytes on its standard input.
pub fn fed(folder: &Path, words: &[&str], input: &[u8]) -> Called {
    run(program(folder, words), input)
}

/// Calls the built program in a folder.
pub fn called(folder: &Path, words: &[&str]) -> Called {
    fed(folder, words, b"")
}

/// Runs a command with these bytes on its standard input.
pub fn run(mut command: Command, input: &[u8]) -> Called {
    let piped = command.stdin(Stdio::piped()).stdout(Stdio::piped()).stderr(Stdio::piped());
    let mut child = piped.spawn().expect("the program is there");
    let mut to = child.stdin.take().expect("its input is a pipe");
    let input = input.to_vec();
    // A program that doesn't read its input to the end is no failure.
    let writer = thread::spawn(move || to.write_all(&input));
    let output = child.wait_with_output().expect("it ends");
    let _ = writer.join().expect("the input is written");
    output.into()
}

/// The repository's root.
pub fn root() -> PathBuf {
    Path::new(env!("CARGO_MANIFEST_DIR")).join("../..")
}

/// A page of the examples.
pub fn example(name: &str) -> String {
    let path = root().join("examples").join(format!("{name}.md"));
    fs::read_to_string(&path).unwrap_or_else(|error| panic!("{path:?}: {error}"))
}
