//! The sheets and file lengths on which two sheet readers are compared.

use crate::common::bad_forms::{STATED_SHEETS, STATED_WITH_MODE};
use crate::common::groups::{in_groups, sheet_of, shortest};
use crate::common::random::Xorshift;
use crate::second::number::NUMBER_LIMIT;
use crate::second::sheet::{run_bytes_read, LAST_PLACE, MOST_RUNS, PAE, PLAIN};

/// One question to a sheet reader.
pub struct Record<'a> {
    pub sheet: &'a [u8],
    pub image_length: u64,
    pub pagefile_length: u64,
}

/// The longest sheet that the program under test takes: edition, directory page, count and 1,000 runs.
const LONGEST_SHEET: usize = 1 + 6 + 2 + 12 * MOST_RUNS as usize;

/// Run counts that are accepted: the edges, those where the count or the room for the runs grows, and one between.
pub const ACCEPTED_RUN_COUNTS: &[u64] = &[1, 2, 31, 32, 33, 127, 128, 210, 999, MOST_RUNS];

/// Run counts that are not, the last in three bytes.
const REFUSED_RUN_COUNTS: [u64; 4] = [0, MOST_RUNS + 1, (1 << 14) - 1, 1 << 14];

const PAGEFILE_LENGTHS: [u64; 5] = [0, 4096, 4095, 1, 8192];

/// Zero, the least and greatest numbers, and both values and states of the top bit.
const CHOSEN_BYTES: [u8; 7] = [0x00, 0x01, 0x02, 0x7F, 0x80, 0x81, 0xFF];

/// Sheets of one, two and three runs; the second is P1. Then sheets of edition 2: mode 1, and places within and at the edge.
const USUAL_SHEETS: [&[u64]; 6] = [
    &[1, 0, 1, 0, 5],
    &[1, 0x187, 2, 1, 0x9E, 0x61, 0x3FEF0],
    &[
        1,
        NUMBER_LIMIT - 1,
        3,
        0,
        1 << 14,
        1 << 21,
        1 << 28,
        1 << 35,
        200,
    ],
    &[2, 5, PLAIN, 0, 1, 0, 5],
    &[2, 0x7600, PAE, 65, 2, 1, 0x9E, 0x61, 0x3FEF0],
    &[2, NUMBER_LIMIT - 1, PAE, LAST_PLACE, 1, 3, 1 << 20],
];

/// Hands every record to `take`, the same ones in the same order at each call.
pub fn each_record(longer: bool, take: &mut dyn FnMut(&Record)) {
    let mut records = Records { take, made: 0 };
    for (sheet, ..) in STATED_SHEETS.iter().chain(&STATED_WITH_MODE) {
        records.add_with_all_lengths(sheet);
    }
    all_short_sheets(&mut records);
    sheets_of_chosen_bytes(&mut records, if longer { 7 } else { 6 });
    forms_in_every_field(&mut records);
    mode_and_place_pairs(&mut records);
    gap_and_length_pairs(&mut records);
    ends_around_the_top(&mut records);
    run_counts(&mut records);
    run_count_forms(&mut records);
    gap_and_length_sizes(&mut records);
    trailing_bytes(&mut records);
    truncations(&mut records);
    damaged_long_sheets(&mut records);
    file_lengths(&mut records);
    changed_sheets(&mut records, 60_000);
}

struct Records<'t> {
    take: &'t mut dyn FnMut(&Record),
    made: usize,
}

impl Records<'_> {
    fn add(&mut self, sheet: &[u8], image_length: u64, pagefile_length: u64) {
        self.made += 1;
        (self.take)(&Record {
            sheet,
            image_length,
            pagefile_length,
        });
    }

    /// The sheet with each image length, the pagefile lengths taking turns.
    fn add_in_turn(&mut self, sheet: &[u8]) {
        for image_length in image_lengths(sheet) {
            let turn = self.made % PAGEFILE_LENGTHS.len();
            self.add(sheet, image_length, PAGEFILE_LENGTHS[turn]);
        }
    }

    /// The sheet with each image length and each pagefile length.
    fn add_with_all_lengths(&mut self, sheet: &[u8]) {
        for image_length in image_lengths(sheet) {
            for pagefile_length in PAGEFILE_LENGTHS {
                self.add(sheet, image_length, pagefile_length);
            }
        }
    }
}

/// The right image length, one more, and 0.
fn image_lengths(sheet: &[u8]) -> [u64; 3] {
    let right = run_bytes_read(sheet);
    [right, right + 1, 0]
}

/// All byte strings of length 0 to 2.
fn all_short_sheets(records: &mut Records) {
    records.add_in_turn(&[]);
    for first in 0..=255 {
        records.add_in_turn(&[first]);
    }
    for first in 0..=255 {
        for second in 0..=255 {
            records.add_in_turn(&[first, second]);
        }
    }
}

/// All strings of chosen bytes up to a length, alone and behind the start of a sheet.
fn sheets_of_chosen_bytes(records: &mut Records, longest: u32) {
    let prefixes: [(&[u8], u32); 4] = [
        (&[], longest),
        (&[1, 0, 1], longest),
        (&[1, 0, 2, 0, 1], longest),
        (&[2, 0], longest - 1),
    ];
    for (prefix, longest) in prefixes {
        for length in 0..=longest {
            for which in 0..CHOSEN_BYTES.len().pow(length) {
                records.add_in_turn(&chosen_bytes(prefix, length, which));
            }
        }
    }
}

/// The digits of `which` in base 7 select the bytes.
fn chosen_bytes(prefix: &[u8], length: u32, mut which: usize) -> Vec<u8> {
    let mut sheet = prefix.to_vec();
    for _ in 0..length {
        sheet.push(CHOSEN_BYTES[which % CHOSEN_BYTES.len()]);
        which /= CHOSEN_BYTES.len();
    }
    sheet
}

/// Each form below in the place of each field, the sheet ending there or at any later byte.
fn forms_in_every_field(records: &mut Records) {
    for fields in USUAL_SHEETS {
        for field in 0..fields.len() {
            let before = sheet_of(&fields[..field]);
            let after = sheet_of(&fields[field + 1..]);
            for form in number_forms(fields[field]) {
                let sheet = [&before[..], &form, &after, &[0]].concat();
                for end in before.len()..=sheet.len() {
                    records.add_with_all_lengths(&sheet[..end]);
                }
            }
        }
    }
}

/// Each mode and each place in each form, the sheet ending behind them or going on.
fn mode_and_place_pairs(records: &mut Records) {
    let forms = number_forms(LAST_PLACE);
    let good_rest = sheet_of(&[1, 0, 5]);
    for mode in &forms {
        for place in &forms {
            let header = [&sheet_of(&[2, 0x187])[..], mode, place].concat();
            records.add_in_turn(&header);
            records.add_in_turn(&[&header[..], &good_rest].concat());
            records.add_in_turn(&[&header[..], &[0x80, 0]].concat());
        }
    }
}

/// Good and bad forms of numbers; `usual` is the field's own number.
fn number_forms(usual: u64) -> Vec<Vec<u8>> {
    let small = [0, 1, 2, 3, 31, 32, 33, 127, 128, 1000, 1001, 1 << 14];
    let large = [
        (1 << 35) - 1,
        1 << 35,
        NUMBER_LIMIT - 1,
        NUMBER_LIMIT,
        NUMBER_LIMIT + 1,
        (1 << 42) - 1,
    ];
    let mut forms: Vec<Vec<u8>> = small
        .iter()
        .chain(&large)
        .map(|value| shortest(*value))
        .collect();
    for value in [0, 1, usual] {
        let enough = shortest(value).len() as u32;
        forms.extend((enough + 1..=7).map(|groups| in_groups(value, groups)));
    }
    for groups in 1..=6 {
        forms.push(vec![0x80; groups]);
        forms.push(vec![0xFF; groups]);
    }
    forms.push(in_groups(1 << 42, 7));
    forms.push(in_groups((1 << 49) - 1, 7));
    forms.push(Vec::new());
    forms
}

/// Faults of the gap against faults of the length, in a first, second and third run.
fn gap_and_length_pairs(records: &mut Records) {
    let forms = [
        shortest(0),
        shortest(1),
        shortest(NUMBER_LIMIT - 1),
        shortest(NUMBER_LIMIT),
        vec![0x80, 0x00],
        vec![0x80; 6],
        vec![0x80],
        Vec::new(),
    ];
    let starts: [&[u64]; 3] = [&[1, 7, 1], &[1, 7, 2, 0, 3], &[1, 7, 3, 2, 3, 4, 5]];
    for start in starts {
        for gap in &forms {
            for length in &forms {
                let runs = [&sheet_of(&start[3..])[..], gap, length].concat();
                add_with_one_more_run(records, start[2], &runs);
            }
        }
    }
}

/// The sheet with these runs, then with its run count raised by one, and with a good or a bad run as well.
fn add_with_one_more_run(records: &mut Records, run_count: u64, runs: &[u8]) {
    records.add_with_all_lengths(&[&sheet_of(&[1, 7, run_count])[..], runs].concat());
    let more: [&[u8]; 6] = [&[], &[1], &[1, 1], &[0, 1], &[1, 0], &[0x80, 0]];
    for run in more {
        let header = sheet_of(&[1, 7, run_count + 1]);
        records.add_with_all_lengths(&[&header[..], runs, run].concat());
    }
}

/// Last runs that end below, at and past page 2^36.
fn ends_around_the_top(records: &mut Records) {
    let ends = [
        NUMBER_LIMIT - 1,
        NUMBER_LIMIT,
        NUMBER_LIMIT + 1,
        NUMBER_LIMIT + 2,
        3 << 35,
    ];
    for runs_before in [0, 1, 2, 31, 32, 127, MOST_RUNS - 2, MOST_RUNS - 1] {
        let end_before = 2 * runs_before;
        for end in ends {
            let room = end - end_before;
            let lengths = [
                1,
                2,
                1 << 20,
                1 << 32,
                1 << 35,
                NUMBER_LIMIT - 1,
                room - 2,
                room - 1,
                room,
            ];
            for length in lengths.into_iter().filter(|length| *length <= room) {
                let mut runs = vec![1; 2 * runs_before as usize];
                runs.extend([room - length, length]);
                add_with_one_more_run(records, runs_before + 1, &sheet_of(&runs));
            }
        }
    }
}

/// Run counts around the limits, with one run fewer, as many, and one more.
fn run_counts(records: &mut Records) {
    let counts = ACCEPTED_RUN_COUNTS.iter().chain(&REFUSED_RUN_COUNTS);
    for count in counts.chain(&[34, 64]) {
        for runs in count.saturating_sub(1)..=count + 1 {
            for run in [[1, 1], [3, 1 << 20]] {
                let header = sheet_of(&[1, 0x187, *count]);
                records.add_with_all_lengths(&cut([header, many(runs, &run)].concat()));
            }
        }
    }
}

/// Run counts in each number of bytes up to one too many, with the runs or without.
fn run_count_forms(records: &mut Records) {
    for count in ACCEPTED_RUN_COUNTS.iter().chain(&REFUSED_RUN_COUNTS) {
        for groups in 1..=7 {
            let header = [sheet_of(&[1, 0x187]), in_groups(*count, groups)].concat();
            records.add_with_all_lengths(&header);
            records.add_in_turn(&cut([header, many(*count, &[1, 1])].concat()));
        }
    }
}

/// So many runs alike.
fn many(runs: u64, run: &[u64; 2]) -> Vec<u8> {
    sheet_of(run).repeat(runs as usize)
}

/// As much of a sheet as the program under test takes.
fn cut(mut sheet: Vec<u8>) -> Vec<u8> {
    sheet.truncate(LONGEST_SHEET);
    sheet
}

/// Gaps and lengths of every size: one of them among those of 1, and all alike, which often end past the top.
fn gap_and_length_sizes(records: &mut Records) {
    for count in ACCEPTED_RUN_COUNTS {
        let room = NUMBER_LIMIT - (2 * count - 1);
        for groups in 1..=6 {
            let least = 1 << (7 * (groups - 1));
            let greatest = ((1 << (7 * groups)) - 1).min(room);
            for field in fields_at_edges(*count) {
                add_with_field(records, *count, field, least);
                add_with_field(records, *count, field, greatest);
            }
            let header = sheet_of(&[1, 0x187, *count]);
            records.add_in_turn(&[header, many(*count, &[least, least])].concat());
        }
    }
}

/// A good sheet of so many runs whose gaps and lengths are 1 but for one of them.
fn add_with_field(records: &mut Records, run_count: u64, field: usize, number: u64) {
    let mut fields = vec![1; 2 * run_count as usize];
    fields[field] = number;
    let sheet = [sheet_of(&[1, 0x187, run_count]), sheet_of(&fields)].concat();
    let right = run_bytes_read(&sheet);
    records.add(&sheet, right, 4096);
    records.add(&sheet, right - 4096, 4096);
}

/// The gap and the length of the first run, the 32nd, the 33rd and the last.
fn fields_at_edges(run_count: u64) -> Vec<usize> {
    let mut runs = vec![0, 31, 32, run_count as usize - 1];
    runs.retain(|run| *run < run_count as usize);
    runs.dedup();
    runs.iter().flat_map(|run| [2 * run, 2 * run + 1]).collect()
}

/// Good sheets with bytes behind them, up to the longest sheet.
fn trailing_bytes(records: &mut Records) {
    for fields in USUAL_SHEETS {
        let sheet = sheet_of(fields);
        for byte in CHOSEN_BYTES {
            for more in [1, 2, 6, 7, LONGEST_SHEET - sheet.len()] {
                records.add_with_all_lengths(&[&sheet[..], &vec![byte; more]].concat());
            }
        }
    }
}

/// Long good sheets, ending at each of their bytes.
fn truncations(records: &mut Records) {
    let mut random = Xorshift::seeded(1);
    let six_groups = [1, NUMBER_LIMIT - 1, 1, 1 << 35, 1 << 35];
    let mut sheets = vec![sheet_of(&six_groups)];
    for widest in [7, 14, 21, 28, 31] {
        sheets.push(random.sheet(32, widest));
        sheets.push(random.sheet_with_mode(32, widest));
    }
    for sheet in sheets {
        for end in 0..=sheet.len() {
            records.add_with_all_lengths(&sheet[..end]);
        }
    }
}

/// Good sheets that end at a place, or whose byte there is changed, dropped or doubled.
fn damaged_long_sheets(records: &mut Records) {
    let mut random = Xorshift::seeded(2);
    for sheet in sheets_to_damage(&mut random) {
        for place in sampled_places(sheet.len(), &mut random) {
            let (before, after) = (&sheet[..place], &sheet[place + 1..]);
            let byte = sheet[place];
            let others: [&[u8]; 5] = [
                &[byte ^ 0x80],
                &[0],
                &[random.below(256) as u8],
                &[],
                &[byte, byte],
            ];
            records.add_in_turn(before);
            for other in others {
                records.add_in_turn(&[before, other, after].concat());
            }
        }
    }
}

/// Sheets of edition 1 with more than 32 runs, and of edition 2 with few and with many.
fn sheets_to_damage(random: &mut Xorshift) -> Vec<Vec<u8>> {
    let of_edition_1 = [
        (33, 28),
        (127, 21),
        (128, 14),
        (210, 21),
        (999, 21),
        (MOST_RUNS, 26),
    ];
    let of_edition_2 = [(1, 31), (2, 7), (3, 33), (32, 21), (127, 14), (210, 21)];
    let sheets = of_edition_1.map(|(run_count, widest)| random.sheet(run_count, widest));
    let others = of_edition_2.map(|(run_count, widest)| random.sheet_with_mode(run_count, widest));
    sheets.into_iter().chain(others).collect()
}

/// Every place of a sheet, or of a long one the first, the last and some between.
fn sampled_places(length: usize, random: &mut Xorshift) -> Vec<usize> {
    let one_in = 1 + length as u64 / 1000 * 5;
    let at_edge = |place: usize| place < 64 || place + 64 >= length;
    (0..length)
        .filter(|place| at_edge(*place) || random.below(one_in) == 0)
        .collect()
}

/// Good sheets with file lengths near the right ones or alike in their low bits.
fn file_lengths(records: &mut Records) {
    let large_sums: [&[u64]; 3] = [
        &[1, 0, 1, 0, 1 << 20],
        &[1, 0, 1, 0, 1 << 32],
        &[1, 0, 1, 1, NUMBER_LIMIT - 1],
    ];
    let pagefile_lengths = [
        0,
        512,
        2048,
        4097,
        1 << 32,
        (1 << 32) + 1,
        1 << 63,
        u64::MAX - 4095,
        u64::MAX,
    ];
    for fields in USUAL_SHEETS.into_iter().chain(large_sums) {
        let sheet = sheet_of(fields);
        let right = run_bytes_read(&sheet);
        let image_lengths = [
            right,
            right - 1,
            right - 4096,
            right + 4096,
            right / 4096,
            right % (1 << 32),
            right + (1 << 32),
            right + (1 << 48),
            right + (1 << 63),
            u64::MAX,
        ];
        for image_length in image_lengths {
            for pagefile_length in pagefile_lengths {
                records.add(&sheet, image_length, pagefile_length);
            }
        }
    }
}

/// Random good sheets with one byte changed, dropped or doubled, or none.
fn changed_sheets(records: &mut Records, how_many: usize) {
    let mut random = Xorshift::seeded(3);
    for _ in 0..how_many {
        let run_count = match random.below(64) {
            0 => 128 + random.below(MOST_RUNS - 127),
            1..=4 => 33 + random.below(95),
            _ => 1 + random.below(32),
        };
        let widest = 1 + random.below(36);
        let mut sheet = match random.below(3) {
            0 => random.sheet_with_mode(run_count, widest),
            _ => random.sheet(run_count, widest),
        };
        let place = random.below(sheet.len() as u64) as usize;
        match random.below(4) {
            0 => {}
            1 => sheet[place] = random.below(256) as u8,
            2 => drop(sheet.remove(place)),
            _ => sheet.insert(place, sheet[place]),
        }
        records.add_in_turn(&sheet);
    }
}

impl Xorshift {
    /// A good sheet with so many runs, gaps and lengths of about so many bits at most.
    fn sheet(&mut self, run_count: u64, widest: u64) -> Vec<u8> {
        let header = [1, self.up_to_bits(36)];
        self.sheet_behind(&header, run_count, widest)
    }

    /// The same of edition 2, in either mode, the place often at an edge.
    fn sheet_with_mode(&mut self, run_count: u64, widest: u64) -> Vec<u8> {
        let directory_page = self.up_to_bits(36);
        let header = match self.below(4) {
            0 => [2, directory_page, PLAIN, 0],
            1 => [2, directory_page, PAE, LAST_PLACE],
            2 => [2, directory_page, PAE, 0],
            _ => [2, directory_page, PAE, self.below(LAST_PLACE + 1)],
        };
        self.sheet_behind(&header, run_count, widest)
    }

    fn sheet_behind(&mut self, header: &[u64], run_count: u64, widest: u64) -> Vec<u8> {
        let mut fields = [header, &[run_count]].concat();
        // Each run needs a gap and a length of at least one page.
        let mut room = NUMBER_LIMIT - 2 * run_count;
        for run in 0..run_count {
            for least in [u64::from(run > 0), 1] {
                let more = self.up_to_bits(widest).min(room);
                room -= more;
                fields.push(least + more);
            }
        }
        sheet_of(&fields)
    }
}
