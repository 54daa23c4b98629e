//! Every place of every rule, damaged on a fresh machine: it is found, by its type and by its words.

use ration::{Field, Finding, Guest, Host, Pa, Place, Refusal, Rule, Va, IMAGE_SIZE, SIZE};

/// A host of the fresh machine's bytes, but for these places.
fn damaged(changes: &[(usize, u8)]) -> Host {
    let mut bytes = *Host::fresh().bytes();
    changes.iter().for_each(|&(place, byte)| bytes[place] = byte);
    Host::from_bytes(bytes)
}

fn rule(number: u8) -> Rule {
    Rule::from_number(number).unwrap()
}

/// The image that holds the state, valid or not.
fn image_of(host: &Host, version: u8) -> Vec<u8> {
    let state = if version == 1 { &host.bytes()[..SIZE - 1] } else { host.bytes() };
    [b"RPS", &[version, 0][..], state].concat()
}

fn opened(image: &[u8]) -> Result<Host, Refusal> {
    let before = Host::from_bytes([170; SIZE]);
    let mut host = before.clone();
    let opened = host.open(image);
    assert!(opened.is_ok() || host == before);
    opened.map(|()| host)
}

/// The rule is broken there, which has these words; and all that is said of the host fits together, also of its image.
fn breaks(host: &Host, number: u8, place: Place, words: &str) {
    assert_eq!(host.broken(rule(number)), Some(place), "{words}");
    assert_eq!(place.to_string(), words);
    let findings = host.check();
    assert!(findings.iter().map(|finding| finding.rule).eq(Rule::ALL));
    assert!(findings.iter().all(|finding| finding.broken == host.broken(finding.rule)));
    assert_eq!(findings[usize::from(number) - 1].to_string(), format!("{number} broken {words}"));
    assert!(!findings.iter().all(Finding::holds) && !host.valid());
    assert_eq!(opened(&image_of(host, 2)).as_ref(), Ok(host));
}

// of docs/STATE.md: where a field starts; and page 4, which is the host's, plus one
const CACHEABLE: usize = 128;
const ENTRY: usize = 192;
const PHYSICAL: usize = 4288;
const CURRENT: usize = 4360;
const CALL: usize = 4364;
const CALL_A: usize = 4368;
const CALL_B: usize = 4372;
const LINE_PAGE: usize = 4394;
const HISTORY: usize = 4410;
const SLOT_ADDRESS: usize = 4418;
const SLOT_PAGE: usize = 4426;
const LINE: usize = 4690;
const POLICY: usize = 4754;
const HOST_PAGE: u8 = 5;

#[test]
fn rules_and_fields() {
    for number in 0..=255 {
        let known = (1..=11).contains(&number);
        assert_eq!(Rule::from_number(number).map(Rule::number), known.then_some(number));
    }
    assert!(Rule::ALL.map(Rule::number).into_iter().eq(1..=11));
    assert_eq!(rule(11).to_string(), "11");
    let names = "owner kind cacheable entry physical free current call callA callB active mode \
                 lineAddress linePage history slotAddress slotPage memory line policy";
    assert_eq!(Field::ALL.map(|field| field.to_string()).join(" "), names);
    assert_eq!(Place::Other { part: 23, place: 4096 }.to_string(), "part 23 place 4096");
}

#[test]
fn all_hold_on_a_fresh_machine() {
    let findings = Host::fresh().check();
    assert!(findings.iter().all(|finding| finding.holds() && finding.broken.is_none()));
    let lines = findings.map(|finding| finding.to_string());
    assert_eq!(lines[..2], ["1 holds", "2 holds"]);
    assert_eq!(lines[10], "11 holds");
}

#[test]
fn guests() {
    for guest in 0..4 {
        let (place, words) = (Place::Guest(Guest(guest)), format!("guest {guest}"));
        let at = usize::from(guest);
        // del has no argument b; nothing is registered at 1; no call has no argument
        breaks(&damaged(&[(CALL + at, 2), (CALL_B + at, 1)]), 1, place, &words);
        breaks(&damaged(&[(CURRENT + at, 1)]), 5, place, &words);
        breaks(&damaged(&[(CALL_A + at, 1)]), 10, place, &words);
    }
}

#[test]
fn pages() {
    for page in 0..64u8 {
        let (place, words) = (Place::Page(page), format!("page {page}"));
        let not_cacheable = (CACHEABLE + usize::from(page), 0);
        breaks(&damaged(&[not_cacheable]), 2, place, &words);
        // guest 0's table maps 7 to it
        breaks(&damaged(&[not_cacheable, (ENTRY + 7, page + 1)]), 6, place, &words);
        // a table without an address, or a page that is given to guest 0
        let unreached = match usize::from(page) {
            table @ 0..=3 => (PHYSICAL + 16 * table, 0),
            other => (other, 2),
        };
        breaks(&damaged(&[unreached]), 3, place, &words);
    }
}

#[test]
fn addresses() {
    for (guest, pa) in (0..64).map(|place| (place / 16, place % 16)) {
        let host = damaged(&[(PHYSICAL + usize::from(16 * guest + pa), HOST_PAGE)]);
        let place = Place::Physical { guest: Guest(guest), address: Pa(pa) };
        breaks(&host, 3, place, &format!("guest {guest} physical {pa}"));
    }
}

#[test]
fn entries() {
    for (page, va) in (0..64).flat_map(|page| (0..64).map(move |va| (page, va))) {
        let host = damaged(&[(ENTRY + 64 * usize::from(page) + usize::from(va), HOST_PAGE)]);
        let place = Place::Entry { page, address: Va(va) };
        breaks(&host, 4, place, &format!("page {page} address {va}"));
    }
}

#[test]
fn ways_and_history() {
    for (set, way) in (0..16).map(|line| (line / 2, line % 2)) {
        let (place, words) = (Place::Way { set, way }, format!("set {set} way {way}"));
        let line = usize::from(2 * set + way);
        let (held, value) = ((LINE_PAGE + line, HOST_PAGE), (LINE + 4 * line, 1));
        breaks(&damaged(&[held]), 7, place, &words);
        breaks(&damaged(&[value]), 10, place, &words);
        breaks(&damaged(&[held, value, (POLICY, 1)]), 11, place, &words);
        if set == 7 {
            breaks(&damaged(&[held]), 9, place, &words);
        }
    }
    breaks(&damaged(&[(HISTORY + 7, 1)]), 9, Place::History { set: 7 }, "set 7 history");
}

#[test]
fn slots() {
    for slot in 0..8 {
        let (place, words) = (Place::Slot(slot), format!("slot {slot}"));
        breaks(&damaged(&[(SLOT_PAGE + usize::from(slot), HOST_PAGE)]), 8, place, &words);
        breaks(&damaged(&[(SLOT_ADDRESS + usize::from(slot), 1)]), 10, place, &words);
    }
}

/// Each byte that is a number as 255, which is in no range.
#[test]
fn numbers() {
    let bytes = [64, 64, 64, 4096, 64, 8, 4, 4, 4, 4, 1, 1, 16, 16, 8, 8, 8, 256, 64, 1];
    let mut at = 0;
    for (field, count) in Field::ALL.into_iter().zip(bytes) {
        let of_bytes = matches!(field, Field::Free | Field::Memory | Field::Line);
        for place in (0..count).filter(|_| !of_bytes) {
            let host = damaged(&[(at + usize::from(place), 255)]);
            breaks(&host, 10, Place::Number { field, place }, &format!("{field} {place}"));
        }
        at += usize::from(count);
    }
    assert_eq!(at, SIZE);
}

/// Opened is what loading refuses with 1, and of the first version what its bytes are, with write-back; refused is 16 alone.
#[test]
fn images() {
    let through = damaged(&[(LINE_PAGE, HOST_PAGE), (LINE, 1), (POLICY, 1)]);
    let image = image_of(&through, 2);
    assert_eq!(Host::fresh().load(&image), Err(Refusal::State));
    assert_eq!(opened(&image).as_ref(), Ok(&through));
    let back = damaged(&[(LINE_PAGE, HOST_PAGE), (LINE, 1)]);
    let first = image_of(&through, 1);
    assert_eq!(opened(&first).as_ref(), Ok(&back));
    assert!(through.broken(rule(11)).is_some() && back.broken(rule(11)).is_none());
    for length in (0..IMAGE_SIZE).chain([IMAGE_SIZE + 1]) {
        let mut cut = image.clone();
        cut.resize(length, 0);
        assert_eq!(opened(&cut), Err(Refusal::Image));
        let mut cut = first.clone();
        cut.resize(length, 0);
        assert_eq!(opened(&cut).is_err(), length != IMAGE_SIZE - 1);
    }
    for place in 0..5 {
        let mut other = image.clone();
        other[place] ^= 32;
        assert_eq!(opened(&other), Err(Refusal::Image));
    }
}

/// Of any bytes something is said, and that all rules hold exactly if they are valid; what is named has a name.
#[test]
fn any_bytes_are_checked() {
    let mut seed = 1u64;
    let mut random = || {
        seed = seed.wrapping_mul(6364136223846793005).wrapping_add(1442695040888963407);
        (seed >> 40) as usize
    };
    for turn in 0..2000 {
        let mut bytes = if turn % 2 == 0 { [0; SIZE] } else { *Host::fresh().bytes() };
        for _ in 0..1 << (random() % 13) {
            bytes[random() % SIZE] = (random() % (1 << (1 + random() % 8))) as u8;
        }
        let host = Host::from_bytes(bytes);
        let findings = host.check();
        assert_eq!(findings.iter().all(Finding::holds), host.valid());
        assert!(!findings
            .iter()
            .any(|finding| matches!(finding.broken, Some(Place::Other { .. }))));
    }
}
