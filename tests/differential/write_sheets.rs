//! Compares the exported writing of sheets with that of the second writer; what is written is read back by the second
//! reader and by the export, and sheets that are accepted are written again.

// Each test uses its own part.
#[allow(dead_code)]
#[path = "../common"]
mod common {
    pub mod arguments;
    pub mod bad_forms;
    pub mod codes;
    pub mod groups;
    pub mod print;
    pub mod random;
    pub mod tally;
}
// Only a part of the earlier calls is used here.
#[allow(dead_code)]
mod exports_map;
#[allow(dead_code)]
mod exports_runs;
mod exports_writer;
// Each test uses its own part of the second reader.
#[allow(dead_code)]
#[path = "../second"]
mod second {
    pub mod codes;
    pub mod lists;
    pub mod number;
    pub mod runs;
    pub mod sheet;
    pub mod sheet_writer;
    pub mod slip;
    pub mod walk;
}
mod sheet_cases;
mod writer_cases;
mod writer_met;

use common::arguments;
use common::print::{hex, with_commas};
use common::tally::{print_table, Tally, LEAST_TIMES};
use second::number::Fault;
use second::runs::NUMBERS_A_RUN;
use second::sheet::{check_sheet, Case as Read, Run};
use second::sheet_writer::{joined_runs, sheet_bytes, write_sheet, Given, MOST_GIVEN};
use second::slip::{Slip, WRITER_SLIPS};
use second::walk::PAGE_BYTES;
use sheet_cases::{each_record, Record};
use std::process::ExitCode;
use writer_cases::{each_case, Case};
use writer_met::Met;

/// Every number that the writing can hand back.
const NUMBERS: &[u64] = &[0, 12, 13, 17];

/// How many differing cases are printed.
const MOST_SHOWN: usize = 5;

/// How many bytes of a sheet, and how many numbers of a list, are printed.
const MOST_BYTES: usize = 64;
const MOST_NUMBERS: usize = 8;

/// Bytes on either side of the lent buffer, which no call may touch.
const GUARD: usize = 16;

/// Pagefiles of whole pages, with which a written sheet reads back.
const PAGEFILE_LENGTHS: [u64; 3] = [0, PAGE_BYTES, 1 << 63];

/// The sheet that the paper states.
const P1: Given = Given {
    directory_page: 0x187,
    mode: 0,
    place: 0,
    starts: &[0x1, 0x100],
    lengths: &[0x9E, 0x3FEF0],
};
const P1_SHEET: [u8; 11] = [
    0x01, 0x87, 0x03, 0x02, 0x01, 0x9E, 0x01, 0x61, 0xF0, 0xFD, 0x0F,
];

/// The same runs in mode 2, with a directory's place.
const PAE_P1: Given = Given {
    mode: 2,
    place: 65,
    ..P1
};
const PAE_P1_SHEET: [u8; 13] = [
    0x02, 0x87, 0x03, 0x02, 0x41, 0x02, 0x01, 0x9E, 0x01, 0x61, 0xF0, 0xFD, 0x0F,
];

fn main() -> ExitCode {
    // Half of them are of mode 0.
    arguments::run("write_sheets", 400_000, WRITER_SLIPS, |arguments| {
        let mut comparison = Comparison::new(arguments.slip);
        each_case(arguments.seed, arguments.cases, &mut |case| {
            comparison.compare(case)
        });
        // A fault in writing is met in the cases already.
        if arguments.slip == Slip::None || reader_slip(arguments.slip) != Slip::None {
            each_record(false, &mut |record| comparison.write_again(record));
        }
        report(&comparison)
    })
}

/// The fault in reading sheets that a fault in reading them back stands for.
fn reader_slip(slip: Slip) -> Slip {
    match slip {
        Slip::ReadBackWithoutGaps => Slip::GapDropped,
        Slip::ReadBackLimitOneTooLow => Slip::LimitOneTooLow,
        Slip::ReadBackTopRefused => Slip::EndAtTopRefused,
        _ => Slip::None,
    }
}

/// What the export reads in a sheet.
fn read_by_export(sheet: &[u8], image_length: u64, pagefile_length: u64) -> Result<Read, Fault> {
    let mut numbers = vec![0; NUMBERS_A_RUN * MOST_GIVEN];
    let read = exports_runs::case_runs(sheet, image_length, pagefile_length, &mut numbers);
    if read.number != 0 {
        return Err(Fault {
            refusal: read.number as u32,
            position: read.length,
        });
    }
    let runs = numbers.chunks(NUMBERS_A_RUN).take(read.length as usize);
    Ok(Read {
        directory_page: read.directory,
        mode: read.mode,
        place: read.place,
        runs: runs
            .map(|run| Run {
                first_frame: run[0],
                pages: run[1],
            })
            .collect(),
    })
}

/// What came of comparing all cases.
struct Comparison {
    slip: Slip,
    cases: u64,
    numbers: Tally,
    met: Met,
    read_back: u64,
    /// The accepted sheets of each mode.
    written_again: [u64; 3],
    differing: u64,
    shown: Vec<String>,
    buffers: [Vec<u8>; 2],
}

impl Comparison {
    fn new(slip: Slip) -> Self {
        Comparison {
            slip,
            cases: 0,
            numbers: Tally::new("sheet", NUMBERS.to_vec()),
            met: Met::new(),
            read_back: 0,
            written_again: [0; 3],
            differing: 0,
            shown: Vec::new(),
            buffers: [Vec::new(), Vec::new()],
        }
    }

    fn compare(&mut self, case: &Case) {
        self.cases += 1;
        let given = case.given();
        let sheet_length = sheet_bytes(&given, Slip::None).len();
        let room = case.room(sheet_length);
        self.met.look(&given, sheet_length, room);
        let mut differences = Vec::new();
        let [[number, length], [our_number, _]] = self.write(&given, room, &mut differences);
        self.numbers.count(our_number);
        if number == 0 {
            differences.extend(self.read_back(&given, length));
        }
        self.note(differences, &given, room);
    }

    /// Writes into two buffers with the same bytes in and around them; the number and length of the export and of ours.
    fn write(
        &mut self,
        given: &Given,
        room: usize,
        differences: &mut Vec<String>,
    ) -> [[u64; 2]; 2] {
        for buffer in &mut self.buffers {
            buffer.clear();
            buffer.extend((0..room + 2 * GUARD).map(pattern_byte));
        }
        let [their_buffer, our_buffer] = &mut self.buffers;
        let lent = GUARD..GUARD + room;
        let theirs = exports_writer::write_sheet(given, &mut their_buffer[lent.clone()]);
        let ours = write_sheet(given, &mut our_buffer[lent], self.slip);
        let pair = [[theirs.number, theirs.length], [ours.number, ours.length]];
        if pair[0] != pair[1] {
            differences.push(format!(
                "number, length: exports {:?}, second writer {:?}",
                pair[0], pair[1]
            ));
        }
        if their_buffer != our_buffer {
            differences.push(buffers_text(their_buffer, our_buffer));
        }
        pair
    }

    /// What the export wrote, as far as there is room for it.
    fn written(&self, length: u64) -> &[u8] {
        let lent = &self.buffers[0][GUARD..self.buffers[0].len() - GUARD];
        &lent[..lent.len().min(length as usize)]
    }

    /// What was written is accepted with the image that the runs ask for, and says what was given.
    fn read_back(&mut self, given: &Given, length: u64) -> Vec<String> {
        self.read_back += 1;
        let joined = joined_runs(given);
        let image_length = PAGE_BYTES * joined.iter().map(|run| run.pages).sum::<u64>();
        let pagefile_length = PAGEFILE_LENGTHS[self.read_back as usize % PAGEFILE_LENGTHS.len()];
        let sheet = self.written(length);
        let by_export = read_by_export(sheet, image_length, pagefile_length);
        let mut by_second =
            check_sheet(sheet, image_length, pagefile_length, reader_slip(self.slip));
        match (&mut by_second, self.slip) {
            (Ok(read), Slip::ReadBackInModeZero) => read.mode = 0,
            (Ok(read), Slip::ReadBackAtPlaceZero) => read.place = 0,
            _ => {}
        }
        let fault = |read: Result<Read, Fault>| match read {
            Err(fault) => Some(format!("{:?}", fault)),
            Ok(read) if read.directory_page != given.directory_page => {
                Some(format!("directory page 0x{:X}", read.directory_page))
            }
            Ok(read) if [read.mode, read.place] != [given.mode, given.place] => {
                Some(format!("mode {}, place {}", read.mode, read.place))
            }
            Ok(read) if read.runs != joined => Some("other runs".to_string()),
            Ok(_) => None,
        };
        let readers = [("export", by_export), ("second reader", by_second)].into_iter();
        readers
            .filter_map(|(reader, read)| {
                Some(format!("read back by the {}: {}", reader, fault(read)?))
            })
            .collect()
    }

    /// An accepted sheet has the same bytes when it is written again.
    fn write_again(&mut self, record: &Record) {
        let Record {
            sheet,
            image_length,
            pagefile_length,
        } = *record;
        let slip = reader_slip(self.slip);
        let Ok(case) = check_sheet(sheet, image_length, pagefile_length, slip) else {
            return;
        };
        self.written_again[case.mode as usize] += 1;
        let starts: Vec<u64> = case.runs.iter().map(|run| run.first_frame).collect();
        let lengths: Vec<u64> = case.runs.iter().map(|run| run.pages).collect();
        let given = Given {
            directory_page: case.directory_page,
            mode: case.mode,
            place: case.place,
            starts: &starts,
            lengths: &lengths,
        };
        let room = sheet.len() + self.written_again.iter().sum::<u64>() as usize % 3;
        let mut differences = Vec::new();
        let [[number, length], _] = self.write(&given, room, &mut differences);
        if number != 0 || self.written(length) != sheet {
            differences.push(format!("written again: not [{}]", part_text(sheet)));
        }
        self.note(differences, &given, room);
    }

    fn note(&mut self, differences: Vec<String>, given: &Given, room: usize) {
        if differences.is_empty() {
            return;
        }
        self.differing += 1;
        if self.shown.len() < MOST_SHOWN {
            let differences = differences.join("\n  ");
            self.shown.push(format!(
                "case {}: {}\n  {}",
                self.cases,
                given_text(given, room),
                differences
            ));
        }
    }
}

/// Never 0, so that a byte left alone differs from a byte of 0.
fn pattern_byte(place: usize) -> u8 {
    (place % 251) as u8 + 1
}

fn given_text(given: &Given, room: usize) -> String {
    let list_text = |list: &[u64]| {
        let shown = list.iter().take(MOST_NUMBERS);
        let words: Vec<String> = shown.map(|number| format!("0x{:X}", number)).collect();
        format!("{} [{}]", list.len(), words.join(" "))
    };
    format!(
        "directory page 0x{:X}, mode {}, place {}, starts {}, lengths {}, into {} bytes",
        given.directory_page,
        given.mode,
        given.place,
        list_text(given.starts),
        list_text(given.lengths),
        room
    )
}

/// The first bytes that differ, by their place in the lent buffer.
fn buffers_text(theirs: &[u8], ours: &[u8]) -> String {
    let mut pairs = theirs.iter().zip(ours);
    let place = pairs.position(|(their, our)| their != our).unwrap_or(0);
    format!(
        "buffers from byte {}: exports [{}], second writer [{}]",
        place as i64 - GUARD as i64,
        part_text(&theirs[place..]),
        part_text(&ours[place..])
    )
}

fn part_text(bytes: &[u8]) -> String {
    hex(&bytes[..bytes.len().min(MOST_BYTES)])
}

/// Prints the tables and every reason to fail; true if there is none.
fn report(comparison: &Comparison) -> bool {
    print_table(&[&comparison.numbers]);
    comparison.met.print();
    comparison
        .shown
        .iter()
        .for_each(|text| println!("{}", text));
    let mut reasons = Vec::new();
    if comparison.differing > 0 {
        reasons.push(format!("differs: {}", comparison.differing));
    }
    reasons.extend(comparison.numbers.reasons(NUMBERS));
    reasons.extend(comparison.met.reasons());
    let [four_level, plain, pae] = comparison.written_again;
    for (what, times) in [
        ("read back", comparison.read_back),
        ("written again, mode 0", four_level),
        ("written again, mode 1", plain),
        ("written again, mode 2", pae),
    ] {
        println!("{:>30}{:>12}", what, with_commas(times));
        if times < LEAST_TIMES {
            reasons.push(format!("{}: {} times, wanted {}", what, times, LEAST_TIMES));
        }
    }
    judge_stated(&P1, &P1_SHEET, &mut reasons);
    judge_stated(&PAE_P1, &PAE_P1_SHEET, &mut reasons);
    reasons.iter().for_each(|reason| println!("{}", reason));
    if reasons.is_empty() {
        println!(
            "write_sheets: {} cases agree",
            with_commas(comparison.cases)
        );
    }
    reasons.is_empty()
}

/// Both writers against a stated sheet.
fn judge_stated(given: &Given, sheet: &[u8], reasons: &mut Vec<String>) {
    let mut buffers = [vec![0; sheet.len()], vec![0; sheet.len()]];
    let [their_buffer, our_buffer] = &mut buffers;
    let theirs = exports_writer::write_sheet(given, their_buffer);
    let ours = write_sheet(given, our_buffer, Slip::None);
    let answers = [[theirs.number, theirs.length], [ours.number, ours.length]];
    for (answer, buffer) in answers.iter().zip(&buffers) {
        if *answer != [0, sheet.len() as u64] || buffer != sheet {
            reasons.push(format!("[{}]: {:?} [{}]", hex(sheet), answer, hex(buffer)));
        }
    }
}
