//! The binary, and a folder for its images.

use std::io::Write;
use std::path::PathBuf;
use std::process::{Child, Command, Output, Stdio};

pub fn started(words: &[&str]) -> Child {
    let mut command = Command::new(env!("CARGO_BIN_EXE_second"));
    command.args(words).stdin(Stdio::piped()).stdout(Stdio::piped()).stderr(Stdio::piped());
    command.spawn().unwrap()
}

pub fn second(words: &[&str], input: &[u8]) -> Output {
    let mut child = started(words);
    let mut stdin = child.stdin.take().unwrap();
    // beside the reading, since a program may print before it has read all; or end before
    std::thread::scope(|scope| {
        scope.spawn(move || stdin.write_all(input));
        child.wait_with_output().unwrap()
    })
}

pub fn printed(words: &[&str], input: &[u8]) -> String {
    let output = second(words, input);
    assert!(output.status.success(), "{words:?}");
    String::from_utf8(output.stdout).unwrap()
}

/// A folder for images, gone at the end.
pub struct Room(pub PathBuf);

impl Room {
    pub fn new(name: &str) -> Room {
        let path = std::env::temp_dir().join(format!("second-{name}-{}", std::process::id()));
        std::fs::create_dir_all(&path).unwrap();
        Room(path)
    }

    pub fn file(&self, name: &str) -> String {
        self.0.join(name).to_str().unwrap().into()
    }
}

impl Drop for Room {
    fn drop(&mut self) {
        let _ = std::fs::remove_dir_all(&self.0);
    }
}
