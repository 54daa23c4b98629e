//! The proved programs, run as processes.

use std::fs::DirEntry;
use std::io::{self, BufReader, BufWriter, Read, Write};
use std::path::{Path, PathBuf};
use std::process::{Child, ChildStdin, ChildStdout, Command, Stdio};
use std::sync::mpsc::{channel, Receiver, RecvTimeoutError};
use std::time::Duration;

use crate::checked::Checked;
use crate::hosts::{Files, Host, Left};
use crate::task::{Item, Task};

/// Before each piece of input, so that a read can come back with less than it asked for.
const PAUSE: Duration = Duration::from_micros(50);

/// The word that has `rpj` run a journal as it arrives, behind those for images, the one behind it that asks for write-through, and the
/// last, by which the image that it would start from is checked; each empty where it is not said.
const STREAM: &str = "stream";
const THROUGH: &str = "through";
const CHECK: &str = "check";

/// So long a line may take to come.
const PATIENCE: Duration = Duration::from_secs(30);

/// A program that rt built, and the script that starts such programs on any machine.
#[derive(Clone, Copy)]
pub struct Program<'a> {
    pub start: &'a Path,
    pub path: &'a Path,
}

/// Does all tasks in one process of `probe`; each result is looked at as it comes.
pub fn probe<E: From<String>>(
    program: Program,
    items: &[Item],
    mut look: impl FnMut(usize, Vec<u8>) -> Result<(), E>,
) -> Result<(), E> {
    let mut child = started(program, &[])?;
    let (input, output) = pipes(&mut child)?;
    let mut output = BufReader::new(output);
    // However this ends, `output` is closed in it: then probe ends, and so does the writing.
    let outcome: Result<(), E> = std::thread::scope(|scope| {
        // A write that fails shows as a result that is missing.
        scope.spawn(move || {
            let mut input = BufWriter::new(input);
            let _ = items.iter().try_for_each(|item| input.write_all(&item.task.bytes()));
        });
        for (i, item) in items.iter().enumerate() {
            let mut ours = vec![0; item.task.result_size()];
            if output.read_exact(&mut ours).is_err() {
                let Item { profile, seed, .. } = item;
                return Err(format!("{profile} {seed}: probe has no result").into());
            }
            look(i, ours)?;
        }
        Ok(at_end(output)?)
    });
    ended(child, outcome)
}

/// Stops a program whose outcome is wrong already.
fn ended<T, E: From<String>>(mut child: Child, outcome: Result<T, E>) -> Result<T, E> {
    if outcome.is_err() {
        let _ = child.kill();
    }
    let status = child.wait().map_err(|e| e.to_string())?;
    let outcome = outcome?;
    match status.success() {
        true => Ok(outcome),
        false => Err(format!("the program ended with {status}").into()),
    }
}

fn pipes(child: &mut Child) -> Result<(ChildStdin, ChildStdout), String> {
    let input = child.stdin.take().ok_or("no standard input")?;
    Ok((input, child.stdout.take().ok_or("no standard output")?))
}

/// Gives the result of a task.
pub type Ask<'a> = dyn FnMut(&Task) -> Result<Vec<u8>, String> + 'a;

/// One process of `probe`, which is asked one task after the other, each with a look at the result before.
pub fn asked<T>(
    program: Program,
    work: impl FnOnce(&mut Ask) -> Result<T, String>,
) -> Result<T, String> {
    let mut child = started(program, &[])?;
    let (mut input, output) = pipes(&mut child)?;
    let mut output = BufReader::new(output);
    // it reads a whole task before it writes, so that neither waits for the other
    let worked = work(&mut |task| {
        let mut ours = vec![0; task.result_size()];
        let asked = input.write_all(&task.bytes()).and_then(|()| output.read_exact(&mut ours));
        asked.map(|()| ours).map_err(|_| "probe has no result".into())
    });
    drop(input);
    let outcome = worked.and_then(|value| at_end(output).map(|()| value));
    ended(child, outcome)
}

fn at_end(mut output: impl Read) -> Result<(), String> {
    match output.read(&mut [0]) {
        Ok(0) => Ok(()),
        _ => Err("probe wrote more than its tasks ask for".into()),
    }
}

/// What `rpj` prints for a journal, which comes in pieces of so many bytes; with no word at all, or with write-through.
pub fn rpj(
    program: Program,
    through: bool,
    journal: &[u8],
    piece: usize,
) -> Result<Vec<u8>, String> {
    let words: &[&str] = if through { &["", "", "", THROUGH] } else { &[] };
    printed(started(program, words)?, journal, piece)
}

/// What `rpj` leaves of a run from an image or to one.
pub fn host(program: Program, host: &Host) -> Result<Left, String> {
    let room = Room::new(&host.files).map_err(|e| e.to_string())?;
    let piece = host.stream.unwrap_or(host.journal.len()).max(1);
    let text = printed(in_room(program, host, &room)?, &host.journal, piece)?;
    room.left(text).map_err(|e| e.to_string())
}

/// The same where nothing of the journal comes, nor its end.
pub fn unread(program: Program, host: &Host) -> Result<Left, String> {
    let room = Room::new(&host.files).map_err(|e| e.to_string())?;
    let text = in_step(in_room(program, host, &room)?, &[], false)?;
    room.left(text).map_err(|e| e.to_string())
}

fn in_room(program: Program, host: &Host, room: &Room) -> Result<Child, String> {
    let named = |word: &str| match word {
        "" => PathBuf::new(),
        name => room.images().join(name),
    };
    let [from, to] = host.words().map(named);
    let stream = host.stream.map_or("", |_| STREAM).into();
    let through = if host.through { THROUGH } else { "" }.into();
    with_words(program, room, &[from, to, stream, through])
}

/// What `rpj` leaves where it checks an image; nothing comes as its input, nor its end.
pub fn checked(program: Program, run: &Checked) -> Result<Left, String> {
    let room = Room::new(&run.files).map_err(|e| e.to_string())?;
    let none = PathBuf::new;
    let words = [room.images().join(run.name), none(), none(), none(), CHECK.into()];
    let text = in_step(with_words(program, &room, &words)?, &[], false)?;
    room.left(text).map_err(|e| e.to_string())
}

fn with_words(program: Program, room: &Room, words: &[PathBuf]) -> Result<Child, String> {
    // sh alone can give a program its descriptor 3
    let child = Command::new("sh")
        .args(["-c", "exec \"$@\" 2>\"$0/message\" 3>\"$0/status\""])
        .args([&room.0, program.start, program.path])
        .args(words)
        .stdin(Stdio::piped())
        .stdout(Stdio::piped())
        .spawn();
    child.map_err(|e| format!("sh: {e}"))
}

/// What a program prints for a journal, which comes in pieces of so many bytes.
fn printed(mut child: Child, journal: &[u8], piece: usize) -> Result<Vec<u8>, String> {
    let (mut input, mut output) = pipes(&mut child)?;
    let mut text = Vec::new();
    std::thread::scope(|scope| {
        // A program may stop reading once a journal is refused.
        scope.spawn(move || {
            let _ = journal.chunks(piece).try_for_each(|part| {
                std::thread::sleep(PAUSE);
                input.write_all(part)
            });
        });
        output.read_to_end(&mut text).map_err(|e| e.to_string())
    })?;
    ended(child, Ok(text))
}

/// `rpj` with a journal that is run as it arrives.
pub fn stream(program: Program, through: bool) -> Result<Child, String> {
    let words = ["", "", STREAM, THROUGH];
    started(program, &words[..3 + through as usize])
}

/// Gives a program one piece after the other, and each only once all that those before it bring is printed; gives all that it
/// prints. The input stays open until the program has ended, where no end of it is asked for.
pub fn in_step(
    mut child: Child,
    pieces: &[(&[u8], String)],
    ends: bool,
) -> Result<Vec<u8>, String> {
    let (mut input, mut output) = pipes(&mut child)?;
    let (send, parts) = channel();
    // ends with the program, and that is stopped where it is not waited for
    std::thread::spawn(move || {
        let mut part = [0; 4096];
        while let Ok(length @ 1..) = output.read(&mut part) {
            let _ = send.send(part[..length].to_vec());
        }
    });
    let (mut text, mut expected) = (Vec::new(), 0);
    for (i, (piece, brings)) in pieces.iter().enumerate() {
        expected += brings.len();
        let told = input.write_all(piece).map_err(|e| e.to_string());
        if let Err(why) = told.and_then(|()| wait(&parts, &mut text, expected)) {
            return ended(child, Err(format!("piece {i}: {why}")));
        }
    }
    let input = Some(input).filter(|_| !ends);
    let outcome = wait(&parts, &mut text, usize::MAX).map(|()| text);
    drop(input);
    ended(child, outcome)
}

/// Until there are so many bytes of text, or no more to come.
fn wait(parts: &Receiver<Vec<u8>>, text: &mut Vec<u8>, bytes: usize) -> Result<(), String> {
    while text.len() < bytes {
        match parts.recv_timeout(PATIENCE) {
            Ok(part) => text.extend(part),
            Err(RecvTimeoutError::Disconnected) => return Ok(()),
            Err(RecvTimeoutError::Timeout) => return Err("its lines do not come".into()),
        }
    }
    Ok(())
}

fn started(program: Program, words: &[&str]) -> Result<Child, String> {
    Command::new(program.start)
        .arg(program.path)
        .args(words)
        .stdin(Stdio::piped())
        .stdout(Stdio::piped())
        .spawn()
        .map_err(|e| format!("{}: {e}", program.start.display()))
}

/// A folder with images, and files for the status and for what is said on standard error beside it; gone at the end.
struct Room(PathBuf);

impl Room {
    fn new(files: &Files) -> io::Result<Room> {
        let room = Room(std::env::temp_dir().join(format!("compare-{}", std::process::id())));
        std::fs::create_dir_all(room.images())?;
        for (name, bytes) in files {
            std::fs::write(room.images().join(name), bytes)?;
        }
        Ok(room)
    }

    fn images(&self) -> PathBuf {
        self.0.join("images")
    }

    /// With the text that was printed.
    fn left(&self, text: Vec<u8>) -> io::Result<Left> {
        let [status, message] = ["status", "message"].map(|name| std::fs::read(self.0.join(name)));
        let message = [!message?.is_empty() as u8];
        Ok(Left { text, status: status?, message, files: self.files()? })
    }

    fn files(&self) -> io::Result<Files> {
        let read = |entry: io::Result<DirEntry>| {
            let entry = entry?;
            let name = entry.file_name().to_string_lossy().into_owned();
            Ok((name, std::fs::read(entry.path())?))
        };
        std::fs::read_dir(self.images())?.map(read).collect()
    }
}

impl Drop for Room {
    fn drop(&mut self) {
        let _ = std::fs::remove_dir_all(&self.0);
    }
}
