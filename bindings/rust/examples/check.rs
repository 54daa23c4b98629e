//! Checks the host of an image, whatever is wrong with it: of each rule that it holds, or the first place where it is broken. It prints what
//! `./rpj --check IMAGE` prints, and ends with the same status: 1 if a rule is broken or IMAGE is no image, 2 if IMAGE cannot be read or
//! the lines cannot be written.

use std::fs::File;
use std::io::{self, Read, Write};
use std::process::ExitCode;

use ration::{Finding, Host, IMAGE_SIZE};

/// A byte more than an image has shows that a file is none, however long it is.
fn bytes_of(name: std::ffi::OsString) -> io::Result<Vec<u8>> {
    let mut image = Vec::new();
    File::open(name)?.take(IMAGE_SIZE as u64 + 1).read_to_end(&mut image)?;
    Ok(image)
}

/// Whether all rules hold.
fn check(image: &[u8], mut out: impl Write) -> io::Result<bool> {
    let mut host = Host::fresh();
    if let Err(refusal) = host.open(image) {
        writeln!(out, "refused {}", refusal.number())?;
        return Ok(false);
    }
    let findings = host.check();
    for finding in &findings {
        writeln!(out, "{finding}")?;
    }
    Ok(findings.iter().all(Finding::holds))
}

fn main() -> ExitCode {
    let mut names = std::env::args_os().skip(1);
    let (Some(name), None) = (names.next(), names.next()) else {
        eprintln!("usage: check IMAGE");
        return ExitCode::from(2);
    };
    match bytes_of(name).and_then(|image| check(&image, io::stdout().lock())) {
        Ok(true) => ExitCode::SUCCESS,
        Ok(false) => ExitCode::from(1),
        Err(error) => {
            eprintln!("{error}");
            ExitCode::from(2)
        }
    }
}
