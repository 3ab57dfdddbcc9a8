//! Numbers over 6 groups or not in their shortest form, put into each kind of field of a sheet or map and met there.

// Each test uses its own part.
#![allow(dead_code)]

use super::codes::BAD_FORMS;
use super::groups::{in_groups, sheet_of, shortest};
use super::print::{hex, with_commas};
use super::random::Xorshift;
use super::tally::LEAST_TIMES;
use crate::second::number::Numbers;
use crate::second::slip::Slip;

const TOO_LONG: u64 = BAD_FORMS[0];

/// In so many cases each bad form is put into each kind of field; a sheet of one run has no later gap.
pub const BAD_FORM_CASES: u64 = LEAST_TIMES + LEAST_TIMES / 5;

/// The kinds of fields that a sheet or a map has.
pub struct Format {
    kinds: &'static [&'static str],
    /// The kind of the field that comes after these; none in a sheet of the other edition.
    next: fn(&[u64]) -> Option<usize>,
}

/// A sheet of edition 1.
pub const SHEET: Format = Format {
    kinds: &[
        "edition",
        "directory page",
        "run count",
        "first gap",
        "later gap",
        "length",
    ],
    next: next_in_sheet,
};

/// A sheet of edition 2 behind its edition, in which a bad form tells nothing of either edition.
pub const SHEET_WITH_MODE: Format = Format {
    kinds: &[
        "directory page",
        "mode",
        "place",
        "run count",
        "first gap",
        "later gap",
        "length",
    ],
    next: next_with_mode,
};

pub const MAP: Format = Format {
    kinds: &[
        "edition",
        "start page",
        "page count",
        "code",
        "length",
        "first page",
    ],
    next: next_in_map,
};

fn next_in_sheet(before: &[u64]) -> Option<usize> {
    let with_mode = before.first() == Some(&2);
    (!with_mode).then(|| next_after(before.len(), 3))
}

fn next_with_mode(before: &[u64]) -> Option<usize> {
    let with_mode = before.first() == Some(&2);
    with_mode.then(|| next_after(before.len() - 1, 4))
}

/// The kind of the field at a place; the first gap has this one, then the later gaps and the lengths take turns.
fn next_after(place: usize, first_gap: usize) -> usize {
    let [later_gap, length] = [first_gap + 1, first_gap + 2];
    match place {
        place if place <= first_gap => place,
        place if place % 2 == first_gap % 2 => later_gap,
        _ => length,
    }
}

fn next_in_map(before: &[u64]) -> Option<usize> {
    const CODE: usize = 3;
    const LENGTH: usize = 4;
    const FIRST_PAGE: usize = 5;
    let (mut kind, mut code) = (0, 0);
    for number in before {
        if kind == CODE {
            code = *number;
        }
        kind = match kind {
            0..=CODE => kind + 1,
            LENGTH if code == 1 || code == 2 => FIRST_PAGE,
            _ => CODE,
        };
    }
    Some(kind)
}

impl Format {
    /// Hands over the fields with one of each kind in each bad form.
    pub fn each_bad_form(
        &self,
        fields: &[u64],
        random: &mut Xorshift,
        take: &mut dyn FnMut(Vec<u8>, &mut Xorshift),
    ) {
        for kind in 0..self.kinds.len() {
            for form in BAD_FORMS {
                if let Some(bytes) = self.with_form(fields, kind, *form, random) {
                    take(bytes, random);
                }
            }
        }
    }

    /// The fields with one of any kind in any bad form.
    pub fn with_bad_form(&self, fields: &[u64], random: &mut Xorshift) -> Vec<u8> {
        let kind = random.below(self.kinds.len() as u64) as usize;
        let form = BAD_FORMS[random.below(2) as usize];
        let bytes = self.with_form(fields, kind, form, random);
        bytes.unwrap_or_else(|| sheet_of(fields))
    }

    /// The fields with one of a kind in a bad form, and what stands behind it or something else; nothing without the kind.
    fn with_form(
        &self,
        fields: &[u64],
        kind: usize,
        form: u64,
        random: &mut Xorshift,
    ) -> Option<Vec<u8>> {
        let places: Vec<usize> = (0..fields.len())
            .filter(|place| (self.next)(&fields[..*place]) == Some(kind))
            .collect();
        if places.is_empty() {
            return None;
        }
        let place = places[random.below(places.len() as u64) as usize];
        let bad = match form {
            TOO_LONG => too_long(fields[place], random),
            _ => not_shortest(fields[place], random),
        };
        let behind = match random.below(4) {
            0 => Vec::new(),
            1 => (0..random.below(16)).map(|_| random.next() as u8).collect(),
            _ => sheet_of(&fields[place + 1..]),
        };
        Some([sheet_of(&fields[..place]), bad, behind].concat())
    }

    /// The kind of the field that begins at a place of a sheet or map, if one does.
    fn kind_at(&self, bytes: &[u8], position: u64) -> Option<usize> {
        let mut numbers = Numbers::new(bytes, Slip::None);
        let mut before = Vec::new();
        while numbers.position() < position {
            before.push(numbers.read().ok()?);
        }
        match numbers.position() == position {
            true => (self.next)(&before),
            false => None,
        }
    }
}

/// Six bytes with the top bit set, or a group more than these.
fn too_long(value: u64, random: &mut Xorshift) -> Vec<u8> {
    match random.below(4) {
        0 => vec![0x80; 6],
        1 => (0..6).map(|_| random.next() as u8 | 0x80).collect(),
        _ => in_groups(value, 7),
    }
}

/// Up to six groups, the last of them 0.
fn not_shortest(value: u64, random: &mut Xorshift) -> Vec<u8> {
    let value = value % (1 << 35);
    let enough = shortest(value).len() as u32;
    in_groups(
        value,
        enough + 1 + random.below(u64::from(6 - enough)) as u32,
    )
}

/// How often a call met each bad form in each kind of field.
pub struct FormTimes {
    call: &'static str,
    format: &'static Format,
    times: Vec<[u64; 2]>,
}

impl FormTimes {
    pub fn new(call: &'static str, format: &'static Format) -> Self {
        FormTimes {
            call,
            format,
            times: vec![[0; 2]; format.kinds.len()],
        }
    }

    /// Counts an answer for a sheet or map, by the position that comes with it.
    pub fn count(&mut self, bytes: &[u8], number: u64, position: u64) {
        let form = BAD_FORMS.iter().position(|form| *form == number);
        // Only a slip names a place at which no number begins.
        let kind = form.and_then(|_| self.format.kind_at(bytes, position));
        if let (Some(form), Some(kind)) = (form, kind) {
            self.times[kind][form] += 1;
        }
    }

    pub fn print(&self) {
        println!("{:<16}{:>12}{:>12}", self.call, BAD_FORMS[0], BAD_FORMS[1]);
        for (kind, times) in self.format.kinds.iter().zip(&self.times) {
            let [too_long, not_shortest] = times.map(with_commas);
            println!("  {:<14}{:>12}{:>12}", kind, too_long, not_shortest);
        }
    }

    /// A reason to fail for each bad form that came up too rarely in a kind of field.
    pub fn reasons(&self) -> Vec<String> {
        let mut reasons = Vec::new();
        for (kind, times) in self.format.kinds.iter().zip(&self.times) {
            for (form, times) in BAD_FORMS.iter().zip(times) {
                if *times < LEAST_TIMES {
                    reasons.push(format!(
                        "{}: {} in the field {} came up {} times, wanted {}",
                        self.call, form, kind, times, LEAST_TIMES
                    ));
                }
            }
        }
        reasons
    }
}

/// A sheet or map with the number and the position that it is refused with.
pub type Stated = (&'static [u8], u64, u64);

/// Sheets by 02, order 9: a position for 11 and 18, and 0 for a number that the sheet ends in or that is too large.
#[rustfmt::skip]
pub const STATED_SHEETS: [Stated; 14] = [
    (&[0x80, 0x00], 18, 0),
    (&[0x80, 0x80, 0x80, 0x80, 0x80, 0x80], 11, 0),
    (&[0x01, 0x80, 0x80, 0x80, 0x80, 0x80, 0x80], 11, 1),
    (&[0x01, 0x87, 0x83, 0x80, 0x00, 0x01, 0x00, 0x01], 18, 1),
    (&[0x01, 0x87, 0x03, 0xA0, 0x00], 18, 3),
    (&[0x01, 0x87, 0x03, 0xFF, 0xFF, 0xFF, 0xFF, 0xFF, 0xFF, 0x01], 11, 3),
    (&[0x01, 0x00, 0x01, 0x80, 0x80, 0x80, 0x80, 0x80, 0x00], 18, 3),
    (&[0x01, 0x00, 0x01, 0x00, 0x80, 0x80, 0x80, 0x80, 0x80, 0x80], 11, 4),
    (&[0x01, 0x00, 0x02, 0x00, 0x01, 0x81, 0x00], 18, 5),
    (&[0x01, 0x87, 0x03, 0x02, 0x01, 0x9E, 0x01, 0x61, 0xF0, 0xFD, 0x8F, 0x00], 18, 8),
    (&[0x01, 0x80, 0x80, 0x80, 0x80, 0x80], 10, 0),
    (&[0x01, 0x00, 0x01, 0x00, 0x81], 10, 0),
    (&[0x01, 0x00, 0x01, 0x00, 0x80, 0x80, 0x80, 0x80, 0x80, 0x02], 12, 0),
    (&[0x01, 0x00, 0x00], 12, 0),
];

/// Sheets of edition 2 by 02, orders 7 and 9: mode and place are numbers like the others, each judged when it is read.
#[rustfmt::skip]
pub const STATED_WITH_MODE: [Stated; 25] = [
    (&[0x02], 10, 0),
    (&[0x02, 0x05], 10, 0),
    (&[0x02, 0x05, 0x81], 10, 0),
    (&[0x02, 0x05, 0x02], 10, 0),
    (&[0x02, 0x05, 0x02, 0xC1], 10, 0),
    (&[0x02, 0x05, 0x02, 0x41], 10, 0),
    (&[0x02, 0x05, 0x00], 12, 0),
    (&[0x02, 0x05, 0x03], 12, 0),
    (&[0x02, 0x05, 0x7F, 0x80, 0x00], 12, 0),
    (&[0x02, 0x05, 0x80, 0x01], 12, 0),
    (&[0x02, 0x05, 0x80, 0x80, 0x80, 0x80, 0x80, 0x02], 12, 0),
    (&[0x02, 0x05, 0x01, 0x01], 12, 0),
    (&[0x02, 0x05, 0x01, 0x7F, 0x80, 0x00], 12, 0),
    (&[0x02, 0x05, 0x02, 0x80, 0x01], 12, 0),
    (&[0x02, 0x05, 0x02, 0x80, 0x80, 0x80, 0x80, 0x80, 0x02], 12, 0),
    (&[0x02, 0x05, 0x82, 0x00, 0x00], 18, 2),
    (&[0x02, 0x05, 0x80, 0x00, 0x00], 18, 2),
    (&[0x02, 0x87, 0x03, 0x82, 0x80, 0x80, 0x80, 0x80, 0x80, 0x00], 11, 3),
    (&[0x02, 0x05, 0x02, 0xC1, 0x00], 18, 3),
    (&[0x02, 0x05, 0x01, 0x80, 0x00], 18, 3),
    (&[0x02, 0x87, 0x03, 0x02, 0xFF, 0xFF, 0xFF, 0xFF, 0xFF, 0xFF], 11, 4),
    (&[0x02, 0x05, 0x02, 0x7F, 0x81, 0x00], 18, 4),
    (&[0x02, 0x05, 0x01, 0x00, 0x00], 12, 0),
    (&[0x02, 0x05, 0x02, 0x7F, 0x01, 0x00, 0x00], 13, 0),
    (&[0x03, 0x05, 0x02, 0x80, 0x00], 12, 0),
];

/// Maps by 02, order 9, likewise.
#[rustfmt::skip]
pub const STATED_MAPS: [Stated; 15] = [
    (&[0x80, 0x00], 18, 0),
    (&[0x81, 0x80, 0x80, 0x80, 0x80, 0x80, 0x00], 11, 0),
    (&[0x01, 0x90, 0x96, 0x00, 0x03], 18, 1),
    (&[0x01, 0x80, 0x80, 0x80, 0x80, 0x80, 0x80], 11, 1),
    (&[0x01, 0x90, 0x16, 0x83, 0x00], 18, 3),
    (&[0x01, 0x90, 0x16, 0x83, 0x80, 0x80, 0x80, 0x80, 0x80, 0x00], 11, 3),
    (&[0x01, 0x90, 0x16, 0x03, 0x81, 0x00, 0x02, 0x05], 18, 4),
    (&[0x01, 0x90, 0x16, 0x03, 0x01, 0x02, 0x05, 0x96, 0x80, 0x80, 0x80, 0x80, 0x80], 11, 7),
    (&[0x01, 0x90, 0x16, 0x03, 0x01, 0x82, 0x00, 0x05], 18, 5),
    (&[0x01, 0x90, 0x16, 0x03, 0x01, 0x02, 0x05, 0x16, 0x81, 0x80, 0x80, 0x80, 0x80, 0x80], 11, 8),
    (&[0x01, 0x90, 0x16, 0x03, 0x01, 0x02, 0x85, 0x80, 0x00, 0x16, 0x01], 18, 6),
    (&[0x01, 0x90, 0x16, 0x03, 0x01, 0x02, 0xFF, 0xFF, 0xFF, 0xFF, 0xFF, 0xFF, 0x7F], 11, 6),
    (&[0x01, 0x90, 0x16, 0x03, 0x01, 0x02, 0x80, 0x80, 0x80, 0x80, 0x80], 10, 0),
    (&[0x01, 0x90, 0x16, 0x03, 0x01, 0x02, 0x80, 0x80, 0x80, 0x80, 0x80, 0x02], 12, 0),
    (&[0x01, 0x90, 0x16, 0x03, 0x84], 10, 0),
];

/// A reason to fail for an answer that is not the stated number, then the position, then 0.
pub fn judge_stated(
    whose: &str,
    (bytes, number, position): &Stated,
    answer: [u64; 3],
    reasons: &mut Vec<String>,
) {
    let wanted = [*number, *position, 0];
    if answer != wanted {
        reasons.push(format!(
            "{}: {:?} instead of {:?} for [{}]",
            whose,
            answer,
            wanted,
            hex(bytes)
        ));
    }
}
