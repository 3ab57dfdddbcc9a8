//! Sheets, file lengths and buffers on which two readers of a case's runs are compared.

use crate::common::bad_forms::{SHEET, SHEET_WITH_MODE};
use crate::common::groups::{sheet_of, shortest};
use crate::common::random::Xorshift;
use crate::second::number::NUMBER_LIMIT;
use crate::second::runs::NUMBERS_A_RUN;
use crate::second::sheet::{run_bytes_read, LAST_PLACE, PAE, PAGE_BYTES, PLAIN};

/// One question to the call: `room` is how many numbers the buffer has.
pub struct Question {
    pub sheet: Vec<u8>,
    pub image_length: u64,
    pub pagefile_length: u64,
    pub room: usize,
}

const MOST_RUNS: u64 = 1000;

/// Hands so many questions to `take`, the same ones for the same seed.
pub fn each_question(seed: u64, cases: u64, take: &mut dyn FnMut(&Question)) {
    let mut random = Xorshift {
        state: seed.wrapping_mul(0x9E37_79B9_7F4A_7C15) | 1,
    };
    for _ in 0..cases {
        take(&question(&mut random));
    }
}

/// A good sheet, or one with a fault of each kind in turn; lengths and room that fit it, or do not.
fn question(random: &mut Xorshift) -> Question {
    let fields = good_fields(random);
    let at_count = count_place(&fields);
    let runs = fields[at_count] as usize;
    let sheet = match random.below(12) {
        0 => cut_short(&fields, random),
        1 if at_count == 2 => SHEET.with_bad_form(&fields, random),
        1 => SHEET_WITH_MODE.with_bad_form(&fields, random),
        2 => with_form(
            &fields,
            &shortest(NUMBER_LIMIT + random.up_to_bits(40)),
            random,
        ),
        3 => with_wrong_number(fields, random),
        4 => with_wrong_run(fields, random),
        5 => [
            sheet_of(&fields),
            vec![random.below(256) as u8; 1 + random.below(8) as usize],
        ]
        .concat(),
        6 => damaged(sheet_of(&fields), random),
        _ => sheet_of(&fields),
    };
    let image_length = image_length(run_bytes_read(&sheet), random);
    let pagefile_length = pagefile_length(random);
    let room = room(NUMBERS_A_RUN * runs, random);
    Question {
        sheet,
        image_length,
        pagefile_length,
        room,
    }
}

/// Where the run count is: behind the directory page, and in edition 2 behind mode and place.
fn count_place(fields: &[u64]) -> usize {
    match fields[0] {
        2 => 4,
        _ => 2,
    }
}

/// The fields of a sheet of either edition up to the run count.
fn good_header(random: &mut Xorshift) -> Vec<u64> {
    let directory_page = random.up_to_bits(36);
    match random.below(8) {
        0 | 1 => vec![2, directory_page, PLAIN, 0],
        2 => vec![2, directory_page, PAE, random.below(2) * LAST_PLACE],
        3 => vec![2, directory_page, PAE, random.below(LAST_PLACE + 1)],
        _ => vec![1, directory_page],
    }
}

/// The header, run count, then gap and length of each run, all within their limits.
fn good_fields(random: &mut Xorshift) -> Vec<u64> {
    let runs = match random.below(64) {
        0..=15 => 1,
        16..=18 => MOST_RUNS,
        19..=21 => 1 + random.below(MOST_RUNS),
        _ => 1 + random.below(40),
    };
    let widest = 1 + random.below(36);
    let mut fields = good_header(random);
    fields.push(runs);
    // Each run needs a gap and a length of at least one page.
    let mut left = NUMBER_LIMIT - 2 * runs;
    for run in 0..runs {
        for least in [u64::from(run > 0), 1] {
            let more = random.up_to_bits(widest).min(left);
            left -= more;
            fields.push(least + more);
        }
    }
    fields
}

fn cut_short(fields: &[u64], random: &mut Xorshift) -> Vec<u8> {
    let mut sheet = sheet_of(fields);
    sheet.truncate(random.below(sheet.len() as u64) as usize);
    sheet
}

/// The sheet with a form in the place of one of its fields.
fn with_form(fields: &[u64], form: &[u8], random: &mut Xorshift) -> Vec<u8> {
    let place = random.below(fields.len() as u64) as usize;
    let (before, after) = (&fields[..place], &fields[place + 1..]);
    [sheet_of(before), form.to_vec(), sheet_of(after)].concat()
}

/// Another edition, mode or place, or a wrong run count.
fn with_wrong_number(mut fields: Vec<u64>, random: &mut Xorshift) -> Vec<u8> {
    let at_count = count_place(&fields);
    match random.below(6) {
        0 => fields[0] = random.below(4),
        1 if at_count == 4 => fields[2] = random.below(5),
        2 if at_count == 4 => fields[3] = random.below(LAST_PLACE + 8),
        3 => fields[at_count] = 0,
        4 => fields[at_count] = MOST_RUNS + 1 + random.below(4),
        _ => fields[at_count] += 1,
    }
    sheet_of(&fields)
}

/// A gap of 0 after the first run, a length of 0, or an end past the top.
fn with_wrong_run(mut fields: Vec<u64>, random: &mut Xorshift) -> Vec<u8> {
    let at_count = count_place(&fields);
    let gap = at_count + 1 + 2 * random.below(fields[at_count]) as usize;
    match random.below(3) {
        0 => fields[gap] = 0,
        1 => fields[gap + 1] = 0,
        _ => fields[gap + 1] = NUMBER_LIMIT - 1 - random.below(2),
    }
    sheet_of(&fields)
}

/// One byte changed, dropped or doubled.
fn damaged(mut sheet: Vec<u8>, random: &mut Xorshift) -> Vec<u8> {
    let place = random.below(sheet.len() as u64) as usize;
    match random.below(3) {
        0 => sheet[place] = random.below(256) as u8,
        1 => drop(sheet.remove(place)),
        _ => sheet.insert(place, sheet[place]),
    }
    sheet
}

/// Mostly the right length, else one near it or like it in its low bits.
fn image_length(right: u64, random: &mut Xorshift) -> u64 {
    match random.below(12) {
        0 => right + 1,
        1 => right.wrapping_sub(PAGE_BYTES),
        2 => right + (1 << 32),
        3 => random.up_to_bits(48),
        _ => right,
    }
}

/// Mostly whole pages.
fn pagefile_length(random: &mut Xorshift) -> u64 {
    let pages = PAGE_BYTES * random.up_to_bits(20);
    match random.below(6) {
        0 => pages + 1 + random.below(PAGE_BYTES - 1),
        1 => u64::MAX - (PAGE_BYTES - 1) * random.below(2),
        _ => pages,
    }
}

/// One short, less, exact, or longer.
fn room(wanted: usize, random: &mut Xorshift) -> usize {
    match random.below(6) {
        0 => wanted - 1,
        1 => random.below(wanted as u64) as usize,
        2 | 3 => wanted,
        4 => wanted + 1 + random.below(2) as usize,
        _ => wanted + random.below(100) as usize,
    }
}
