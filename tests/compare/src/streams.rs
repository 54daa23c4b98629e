//! The program `rpj` with journals that are run as they arrive: what it prints and when, its status and the files that it leaves.

use second::{image_of, Start, Stream, HEADER};

use crate::difference;
use crate::hosts::{self, Host, FORMS, FROM_IMAGE};
use crate::images::{self, IN_A_ROW};
use crate::journals::journal;
use crate::programs::{self, Program};

/// How many bytes come at a time.
const PIECES: [usize; 6] = [1, 3, 8, 13, 1000, 40_000];
/// No journal comes in more pieces than this, since each of them takes its time.
const MOST_PIECES: usize = 150;

/// By its number a run has a size of its pieces.
fn cut(host: Host, i: usize) -> Host {
    let piece = PIECES[i % PIECES.len()].max(host.journal.len() / MOST_PIECES);
    host.arriving(piece)
}

fn arriving(form: usize, image: &[u8], journal: Vec<u8>, i: usize) -> Host {
    cut(Host::new(form, image, journal), i)
}

/// Runs of each form that go on from where others led; journals from nothing to a few records; from images of version 1, with
/// write-through and where that is wrong use; and two that are too long to be run as a whole.
fn runs() -> Vec<Host> {
    let profiles = ["deep", "near", "blind", "declined", "noise", "garbage", "crowd"];
    let images: Vec<Vec<u8>> = images::along().iter().map(image_of).collect();
    let form = |i: usize| i % FORMS.len();
    let mut hosts = Vec::new();
    for (i, image) in images.iter().enumerate().take(3 * FORMS.len()) {
        let journal = journal(profiles[i % profiles.len()], 2 + 2 * (i as u64 / 8));
        hosts.push(arriving(form(i), image, journal, i));
    }
    for (length, image) in images.iter().enumerate().take(30) {
        hosts.push(arriving(form(length), image, journal("lengths", length as u64), length));
    }
    let (old, through) = (hosts::old_images(), hosts::through());
    let more = old.into_iter().chain(through).enumerate();
    hosts.extend(more.map(|(i, host)| cut(host, i)));
    let long = [64, 67].map(|seed| journal("lengths", seed)).into_iter().enumerate();
    hosts.extend(long.map(|(i, journal)| arriving(i, &images[i], journal, 4)));
    hosts
}

/// Of each form a wrong header; of each form that starts from an image one that is none and one that is not valid. Each with
/// write-through and without, from an image of write-through.
fn refused() -> Vec<Host> {
    let image = image_of(&images::along()[IN_A_ROW]);
    let wrong = |form| arriving(form, &image, journal("headers", 9 * form as u64), form);
    let mut hosts: Vec<Host> = (0..FORMS.len()).map(wrong).collect();
    let (no_images, broken) = (hosts::no_images(), hosts::broken());
    for (i, form) in FROM_IMAGE.into_iter().enumerate() {
        let short = if i % 2 == 0 { journal("near", 3) } else { b"none".to_vec() };
        hosts.push(arriving(form, &no_images[i % no_images.len()], short.clone(), i));
        hosts.push(arriving(form, &broken[i % broken.len()], short, i + 1));
    }
    let through: Vec<Host> = hosts.iter().map(|host| host.clone().through(true)).collect();
    [hosts, through].concat()
}

/// Runs of each policy that save over the image that they came from.
pub fn few() -> [Host; 2] {
    [(5, false), (5 + IN_A_ROW, true)].map(|(at, through)| {
        let image = image_of(&images::along()[at]);
        arriving(0, &image, journal("lengths", 37), 1).through(through)
    })
}

/// What ends before any of the journal is read: wrong uses, and images that are refused.
fn unread() -> Vec<Host> {
    let ends = |host: &Host| host.expected().status != b"0";
    let wrong = hosts::through().into_iter().filter(ends).step_by(5);
    let refused = FROM_IMAGE.into_iter().zip(hosts::broken());
    let refused =
        refused.map(|(form, image)| Host::new(form, &image, Vec::new()).through(form > 2));
    wrong.chain(refused.step_by(3)).enumerate().map(|(i, host)| cut(host, i)).collect()
}

/// Pieces that each come once the lines of those before are out, and whether the input ends with them.
fn in_step() -> Vec<(Vec<Vec<u8>>, bool)> {
    let cut = |bytes: &[u8], piece: usize| bytes.chunks(piece).map(<[u8]>::to_vec).collect();
    let mut wrong = HEADER.to_vec();
    wrong[6] = 1;
    vec![
        (cut(&journal("near", 3), 8), true),
        (cut(&journal("near", 7)[..203], 5), true),
        (cut(&journal("declined", 2), 100), true),
        (cut(&HEADER[..7], 2), true),
        (cut(&wrong[..7], 3), false),
        (cut(b"RPS", 1), false),
    ]
}

fn stepped(rpj: Program, through: bool, pieces: &[Vec<u8>], ends: bool) -> Result<(), String> {
    let start = Start { from: None, through };
    let mut stream = Stream::new(start).map_err(|ended| format!("no start: {ended:?}"))?;
    let mut brings = |piece: &[u8], last| {
        stream.take(piece, last).unwrap_or_else(|number| format!("refused {number}\n"))
    };
    let pieces: Vec<(&[u8], String)> =
        pieces.iter().map(|piece| (&piece[..], brings(piece, false))).collect();
    let mut expected: String = pieces.iter().map(|(_, text)| &text[..]).collect();
    if ends {
        expected += &brings(&[], true);
    }
    let ours = programs::in_step(programs::stream(rpj, through)?, &pieces, ends)?;
    difference::of_texts(&ours, expected.as_bytes()).map_or(Ok(()), Err)
}

fn without_input(rpj: Program, host: &Host) -> Result<(), String> {
    let ours = programs::unread(rpj, host)?;
    difference::of_left(&ours, &host.expected()).map_or(Ok(()), Err)
}

/// How many there were.
pub fn all(rpj: Program) -> Result<usize, String> {
    let hosts: Vec<Host> = runs().into_iter().chain(refused()).collect();
    let count = hosts::compared(rpj, hosts, true)?;
    let in_step = in_step();
    for (i, (pieces, ends)) in in_step.iter().enumerate() {
        stepped(rpj, i % 2 == 1, pieces, *ends)
            .map_err(|text| format!("difference: rpj, step by step, {i}: {text}"))?;
    }
    let unread = unread();
    for (i, host) in unread.iter().enumerate() {
        without_input(rpj, host)
            .map_err(|text| format!("difference: rpj, without input, {i}, {host}: {text}"))?;
    }
    Ok(count + in_step.len() + unread.len())
}
