//! Runs a journal from standard input as it arrives, of any length, in fixed buffers. It prints what `./rpj --stream` prints, and ends with
//! the same status: 1 if the journal is refused, 2 if it cannot be read or its answers cannot be written.

use std::error::Error;
use std::io::{self, Read, Write};
use std::process::ExitCode;

use ration::{FeedError, Feeder, Host};

/// Each line is out before more input is waited for: standard output is written line by line.
fn run(host: &mut Host, input: impl Read, mut out: impl Write) -> Result<(), Box<dyn Error>> {
    let mut feeder = Feeder::new(host, input);
    feeder.read_header()?;
    writeln!(out, "RPJ 1")?;
    let (mut accepted, mut refused) = (0u64, 0u64);
    for answer in &mut feeder {
        let answer = answer?;
        match answer.number() {
            0 => accepted += 1,
            _ => refused += 1,
        }
        writeln!(out, "{} {} {}", accepted + refused, answer.number(), answer.value())?;
    }
    if feeder.left_over() != 0 {
        writeln!(out, "cut {}", feeder.left_over())?;
    }
    writeln!(out, "done {accepted} refused {refused}")?;
    Ok(())
}

fn main() -> ExitCode {
    let Err(error) = run(&mut Host::fresh(), io::stdin().lock(), io::stdout().lock()) else {
        return ExitCode::SUCCESS;
    };
    if let Some(FeedError::Refused(refusal)) = error.downcast_ref() {
        println!("refused {}", refusal.number());
        return ExitCode::from(1);
    }
    eprintln!("{error}");
    ExitCode::from(2)
}
