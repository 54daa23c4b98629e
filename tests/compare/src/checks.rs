//! Checks: what is told of each rule of a machine, and the text of `--check`; their bytes for `probe`, and what the second
//! program makes of them.

use second::bytes::FIELDS;
use second::{check, first_broken, State};

/// The rule numbers that are asked for: all there are, those beside them, and the last that a byte has.
pub const ASKED: [u8; 14] = [0, 1, 2, 3, 4, 5, 6, 7, 8, 9, 10, 11, 12, 255];

/// What is told of one number: the answer, the part, and the place in it, 16 bits.
pub const TOLD: usize = 4;

/// Of all numbers.
pub const CHECKED: usize = ASKED.len() * TOLD;

/// The status as a digit and how many bytes were typed, before the buffer.
pub const REPORTED: usize = 3;

/// A broken place, by its part and its number there.
pub type Place = (usize, usize);

/// What the second program tells of a machine.
pub fn checked(machine: &[u8]) -> Vec<u8> {
    let state = State::from_bytes(machine);
    ASKED.into_iter().flat_map(|rule| first_broken(&state, rule).bytes()).collect()
}

/// The second program's text, as much of it as the buffer has room for.
pub fn reported(image: &[u8], buffer: &[u8]) -> Vec<u8> {
    let ended = check(image);
    let text = ended.text.as_bytes();
    let typed = text.len().min(buffer.len());
    let [low, high] = (typed as u16).to_le_bytes();
    [&[b'0' + ended.status, low, high], &text[..typed], &buffer[typed..]].concat()
}

/// What a report gives back.
pub struct Given<'a> {
    pub status: u8,
    pub typed: usize,
    pub buffer: &'a [u8],
}

impl<'a> Given<'a> {
    pub fn of(result: &'a [u8]) -> Given<'a> {
        let typed = u16::from_le_bytes([result[1], result[2]]).into();
        Given { status: result[0], typed, buffer: &result[REPORTED..] }
    }

    /// What was typed.
    pub fn text(&self) -> &'a [u8] {
        &self.buffer[..self.typed.min(self.buffer.len())]
    }
}

/// Each rule's broken place, or that it holds; None where it is another text, or not all of one.
pub fn places(text: &[u8]) -> Option<Vec<Option<Place>>> {
    let text = std::str::from_utf8(text).ok()?.strip_suffix('\n')?;
    let of_line = |(rule, line): (usize, &str)| {
        let (number, said) = line.split_once(' ')?;
        (number == rule.to_string()).then_some(())?;
        match said.strip_prefix("broken ") {
            Some(words) => place(rule, words).map(Some),
            None => (said == "holds").then_some(None),
        }
    };
    let rules: Option<Vec<_>> = (1..).zip(text.split('\n')).map(of_line).collect();
    rules.filter(|rules| rules.len() == second::RULES)
}

/// The part and the number that a rule's words name.
fn place(rule: usize, words: &str) -> Option<Place> {
    let words: Vec<&str> = words.split(' ').collect();
    let n = |word: &str| word.parse::<usize>().ok();
    Some(match (rule, &words[..]) {
        (1 | 5, ["guest", g]) => (0, n(g)?),
        (2 | 6, ["page", p]) => (0, n(p)?),
        (3, ["guest", g, "physical", a]) => (0, 16 * n(g)? + n(a)?),
        (3, ["page", p]) => (1, n(p)?),
        (4, ["page", p, "address", v]) => (0, 64 * n(p)? + n(v)?),
        (7 | 11, ["set", k, "way", w]) => (0, 2 * n(k)? + n(w)?),
        (8, ["slot", i]) => (0, n(i)?),
        (9, ["set", "7", "way", w]) => (0, n(w)?),
        (9, ["set", "7", "history"]) => (1, 0),
        (10, ["guest", g]) => (20, n(g)?),
        (10, ["set", k, "way", w]) => (21, 2 * n(k)? + n(w)?),
        (10, ["slot", i]) => (22, n(i)?),
        (10, [field, i]) => (FIELDS.iter().position(|name| name == field)?, n(i)?),
        _ => return None,
    })
}

#[cfg(test)]
mod tests {
    use super::*;
    use second::damage::at_places;
    use second::{fresh, image_of};

    /// The words name the place that the numbers name.
    #[test]
    fn words_and_numbers_are_of_one_place() {
        for (target, state) in at_places(9) {
            let text = check(&image_of(&state)).text;
            let place = places(text.as_bytes()).and_then(|places| places[target.rule - 1]);
            assert_eq!(place, Some((target.part, target.place)), "{text}");
            let told = &checked(&state.to_bytes())[TOLD * target.rule..][..TOLD];
            let [low, high] = (target.place as u16).to_le_bytes();
            assert_eq!(told, [1, target.part as u8, low, high]);
        }
    }

    #[test]
    fn other_texts_name_nothing() {
        let text = check(&image_of(&fresh())).text;
        assert_eq!(places(text.as_bytes()), Some(vec![None; second::RULES]));
        assert_eq!(places(&text.as_bytes()[..text.len() - 1]), None);
        assert_eq!(places(b"refused 16\n"), None);
        assert_eq!(places(text.replace("3 holds", "3 broken page").as_bytes()), None);
        assert_eq!(places(text.replace("3 holds", "4 holds").as_bytes()), None);
    }
}
