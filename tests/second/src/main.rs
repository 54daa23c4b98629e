//! `second run [FROM TO [through]]|stream [FROM TO [through]]|check IMAGE|state [through]|rules|step|cases|gen SEED COUNT PROFILE|damage SEED COUNT`

use std::fs;
use std::io::{self, BufRead, Read, Write};
use std::path::Path;
use std::process::ExitCode;

use second::hex::{from_hex, to_hex};
use second::journal::answer_bytes;
use second::program::Ended;
use second::{cases, check, damage, fresh_with, gen, program, rules, run_journal};
use second::{step, Policy, Start, State, Stream, RULES, STATE_BYTES};

type Outcome = Result<ExitCode, String>;

/// FROM and TO name images; an empty word names none. through asks for write-through. stream runs a journal as it arrives, however
/// long it is; gen writes one.
const USAGE: &str =
    "usage: second run [FROM TO [through]] | stream [FROM TO [through]] | check IMAGE | state [through] \
                     | rules | step | cases | gen SEED COUNT deep|near|noise | damage SEED COUNT";

const THROUGH: &str = "through";

/// What the program says where it is not used as it should be.
const WRONG_USE: &str = "wrong use: the image is write-back";

/// How much of a journal that arrives is read at a time, so that its lines come soon.
const PIECE: usize = 4096;

fn main() -> ExitCode {
    let words: Vec<String> = std::env::args().skip(1).collect();
    let words: Vec<&str> = words.iter().map(String::as_str).collect();
    let outcome = match words[..] {
        ["run"] => run("", "", false),
        ["run", from, to] => run(from, to, false),
        ["run", from, to, THROUGH] => run(from, to, true),
        ["stream"] => stream("", "", false),
        ["stream", from, to] => stream(from, to, false),
        ["stream", from, to, THROUGH] => stream(from, to, true),
        ["check", image] => checked(image),
        ["state"] => state(false),
        ["state", THROUGH] => state(true),
        ["rules"] => each_line(rules_line),
        ["step"] => each_line(step_line),
        ["cases"] => put(cases::cases().as_bytes()),
        ["gen", seed, count, profile] => generate(seed, count, profile),
        ["damage", seed, count] => damaged(seed, count),
        _ => Err(USAGE.into()),
    };
    match outcome {
        Ok(status) => status,
        Err(text) => {
            eprintln!("{text}");
            ExitCode::from(2)
        }
    }
}

fn put(bytes: &[u8]) -> Outcome {
    let mut out = io::stdout().lock();
    out.write_all(bytes).and_then(|()| out.flush()).map_err(|e| e.to_string())?;
    Ok(ExitCode::SUCCESS)
}

fn input() -> Result<Vec<u8>, String> {
    let mut bytes = Vec::new();
    io::stdin().lock().read_to_end(&mut bytes).map_err(|e| e.to_string())?;
    Ok(bytes)
}

fn run(from: &str, to: &str, through: bool) -> Outcome {
    let (journal, image) = (input()?, read_image(from)?);
    end(program(Start { from: image.as_deref(), through }, &journal), to)
}

fn read_image(from: &str) -> Result<Option<Vec<u8>>, String> {
    let image = || fs::read(from).map_err(|e| e.to_string());
    (!from.is_empty()).then(image).transpose()
}

/// Reads nothing but the image.
fn checked(image: &str) -> Outcome {
    end(check(&fs::read(image).map_err(|e| e.to_string())?), "")
}

/// Prints what is left to be printed, then saves.
fn end(ended: Ended, to: &str) -> Outcome {
    if ended == Ended::wrong_use() {
        return Err(WRONG_USE.into());
    }
    put(ended.text.as_bytes())?;
    if let Some(image) = ended.saved.filter(|_| !to.is_empty()) {
        keep(&image, to).map_err(|e| e.to_string())?;
    }
    Ok(ExitCode::from(ended.status))
}

/// The journal as it arrives.
fn stream(from: &str, to: &str, through: bool) -> Outcome {
    let image = read_image(from)?;
    match Stream::new(Start { from: image.as_deref(), through }) {
        Ok(stream) => end(arriving(stream)?, to),
        Err(ended) => end(ended, to),
    }
}

/// Prints each piece's lines before the next one is read.
fn arriving(mut stream: Stream) -> Result<Ended, String> {
    let mut piece = [0; PIECE];
    loop {
        let length = arrived(&mut piece)?;
        match stream.take(&piece[..length], length == 0) {
            Err(number) => return Ok(Ended::refused(number)),
            Ok(text) if length == 0 => return Ok(stream.ended(text)),
            Ok(text) => put(text.as_bytes())?,
        };
    }
}

/// What is there to be read, 0 bytes at the end of the input.
fn arrived(piece: &mut [u8]) -> Result<usize, String> {
    loop {
        match io::stdin().lock().read(piece) {
            Err(e) if e.kind() == io::ErrorKind::Interrupted => {}
            length => return length.map_err(|e| e.to_string()),
        }
    }
}

/// At every moment the old file or the new one is there whole.
fn keep(image: &[u8], to: &str) -> io::Result<()> {
    let new = format!("{to}.new");
    let mut file = fs::File::create(&new)?;
    file.write_all(image)?;
    file.sync_all()?;
    fs::rename(&new, to)?;
    let folder = Path::new(to).parent().filter(|folder| !folder.as_os_str().is_empty());
    fs::File::open(folder.unwrap_or(Path::new(".")))?.sync_all()
}

fn state(through: bool) -> Outcome {
    let journal = input()?;
    let mut machine = fresh_with(if through { Policy::WriteThrough } else { Policy::WriteBack });
    let mut answers = vec![0; answer_bytes(&journal)];
    // A refused journal leaves the fresh machine as it is.
    let _ = run_journal(&mut machine, &journal, &mut answers);
    put(format!("{}\n", to_hex(&machine.to_bytes())).as_bytes())
}

/// Answers each line of the input that isn't blank.
fn each_line(answer: fn(&str) -> Result<String, String>) -> Outcome {
    let mut out = io::BufWriter::new(io::stdout().lock());
    for (i, line) in io::stdin().lock().lines().enumerate() {
        let line = line.map_err(|e| e.to_string())?;
        if !line.trim().is_empty() {
            let text = answer(&line).map_err(|e| format!("line {}: {e}", i + 1))?;
            writeln!(out, "{text}").map_err(|e| e.to_string())?;
        }
    }
    out.flush().map_err(|e| e.to_string())?;
    Ok(ExitCode::SUCCESS)
}

fn state_from_hex(text: &str) -> Result<State, String> {
    let bytes = from_hex(text).ok_or("not hex")?;
    if bytes.len() != STATE_BYTES {
        return Err(format!("a state has {STATE_BYTES} bytes, not {}", bytes.len()));
    }
    Ok(State::from_bytes(&bytes))
}

fn rules_line(line: &str) -> Result<String, String> {
    let holds = rules(&state_from_hex(line.trim())?);
    let digit = |holds: bool| if holds { '1' } else { '0' };
    let each: String = holds.iter().map(|holds| digit(*holds)).collect();
    Ok(format!("{each} {}", digit(holds.iter().all(|holds| *holds))))
}

/// A line without a second word has the empty record.
fn step_line(line: &str) -> Result<String, String> {
    let line = line.trim();
    let (state, record) = line.split_once(' ').unwrap_or((line, ""));
    let mut machine = state_from_hex(state)?;
    let record = from_hex(record.trim()).ok_or("record: not hex")?;
    let (number, value) = step(&mut machine, &record);
    Ok(format!("{number} {value} {}", to_hex(&machine.to_bytes())))
}

fn numbers(seed: &str, count: &str) -> Result<(u64, usize), String> {
    match (seed.parse(), count.parse()) {
        (Ok(seed), Ok(count)) => Ok((seed, count)),
        _ => Err(USAGE.into()),
    }
}

fn generate(seed: &str, count: &str, profile: &str) -> Outcome {
    let (seed, count) = numbers(seed, count)?;
    put(&gen::journal(seed, count, profile).ok_or(USAGE)?)
}

fn damaged(seed: &str, count: &str) -> Outcome {
    let (seed, count) = numbers(seed, count)?;
    let states = damage::states(seed, count);
    let lines: String = states.iter().map(|s| to_hex(&s.to_bytes()) + "\n").collect();
    put(lines.as_bytes())?;
    let alone: Vec<usize> = states.iter().filter_map(damage::broken_alone).collect();
    for rule in 0..RULES {
        let times = alone.iter().filter(|broken| **broken == rule).count();
        eprintln!("rule {} broken alone {times} times", rule + 1);
    }
    Ok(ExitCode::SUCCESS)
}
