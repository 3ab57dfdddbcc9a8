//! Compares a program's answers for case sheets with those of the second reader.

#[path = "../common"]
mod common {
    pub mod bad_forms;
    pub mod codes;
    pub mod groups;
    pub mod print;
    pub mod random;
    pub mod tally;
}
// Each test uses its own part of the second reader.
#[allow(dead_code)]
#[path = "../second"]
mod second {
    pub mod number;
    pub mod sheet;
    pub mod slip;
}
mod sheet_cases;

use common::bad_forms::{FormTimes, SHEET, SHEET_WITH_MODE, STATED_SHEETS, STATED_WITH_MODE};
use common::codes::{BAD_FORMS, CASE_REFUSALS};
use common::print::{hex, with_commas};
use common::tally::{print_table, Tally};
use second::number::Fault;
use second::sheet::{check_sheet, Case, FOUR_LEVEL, PAE, PLAIN};
use second::slip::{self, Slip, FORM_SLIPS, SHEET_SLIPS};
use sheet_cases::{each_record, Record, ACCEPTED_RUN_COUNTS};
use std::io::{self, BufRead, BufReader, BufWriter, Write};
use std::process::{ChildStdin, Command, ExitCode, ExitStatus, Stdio};
use std::thread;

const USAGE: &str = "usage: sheets PROGRAM [--slip NAME] [--longer] [--list-slips]";

/// Every answer that a sheet can have.
fn answers() -> Vec<u64> {
    [&[0], CASE_REFUSALS].concat()
}

const MODES: &[u64] = &[FOUR_LEVEL, PLAIN, PAE];

/// How many differing cases are printed.
const MOST_SHOWN: usize = 5;

/// How much of a differing sheet or line is printed.
const MOST_BYTES_SHOWN: usize = 1000;

/// P1 of the paper: sheet, image length, line.
const P1: (&[u8], u64, &str) = (
    &[
        0x01, 0x87, 0x03, 0x02, 0x01, 0x9E, 0x01, 0x61, 0xF0, 0xFD, 0x0F,
    ],
    0x3FF8E000,
    "0 391 0 0 2 1 158 256 261872\n",
);

/// The faults of the second reader that are tried here.
fn slips() -> Vec<Slip> {
    [SHEET_SLIPS, FORM_SLIPS].concat()
}

struct Arguments {
    program: Option<String>,
    slip: Slip,
    longer: bool,
    list_slips: bool,
}

fn main() -> ExitCode {
    let arguments = match read_arguments(std::env::args().skip(1)) {
        Ok(arguments) => arguments,
        Err(why) => return wrong_use(&why),
    };
    if arguments.list_slips {
        slips().iter().for_each(|slip| println!("{:?}", slip));
        return ExitCode::SUCCESS;
    }
    let program = match &arguments.program {
        Some(program) => program,
        None => return wrong_use("no program given"),
    };
    match run_program(program, arguments.slip, arguments.longer) {
        Ok((comparison, status)) if report(&comparison, status) => ExitCode::SUCCESS,
        Ok(_) => ExitCode::from(1),
        Err(error) => wrong_use(&format!("{}: {}", program, error)),
    }
}

fn wrong_use(why: &str) -> ExitCode {
    eprintln!("sheets: {}\n{}", why, USAGE);
    ExitCode::from(2)
}

fn read_arguments(mut words: impl Iterator<Item = String>) -> Result<Arguments, String> {
    let mut arguments = Arguments {
        program: None,
        slip: Slip::None,
        longer: false,
        list_slips: false,
    };
    while let Some(word) = words.next() {
        match word.as_str() {
            "--longer" => arguments.longer = true,
            "--list-slips" => arguments.list_slips = true,
            "--slip" => {
                let name = words.next().ok_or("--slip needs a name")?;
                arguments.slip = slip::named(&slips(), &name).ok_or(format!("no slip {}", name))?;
            }
            _ if word.starts_with("--") || arguments.program.is_some() => {
                return Err(format!("unexpected {}", word));
            }
            _ => arguments.program = Some(word),
        }
    }
    Ok(arguments)
}

/// What came of comparing all lines.
struct Comparison {
    cases: u64,
    answers: Tally,
    bad_forms: FormTimes,
    bad_forms_with_mode: FormTimes,
    /// The accepted sheets of certain run counts.
    runs: Tally,
    /// The accepted sheets of each mode.
    modes: Tally,
    differing: u64,
    shown: Vec<String>,
    missing: u64,
    extra: u64,
}

fn run_program(program: &str, slip: Slip, longer: bool) -> io::Result<(Comparison, ExitStatus)> {
    let mut child = Command::new(program)
        .stdin(Stdio::piped())
        .stdout(Stdio::piped())
        .spawn()?;
    let input = child.stdin.take().expect("standard input is a pipe");
    let output = child.stdout.take().expect("standard output is a pipe");
    let writer = thread::spawn(move || write_records(input, longer));
    let comparison = compare_lines(BufReader::new(output), slip, longer)?;
    writer.join().expect("the writer does not panic");
    Ok((comparison, child.wait()?))
}

/// Writes until the program no longer reads.
fn write_records(input: ChildStdin, longer: bool) {
    let mut input = BufWriter::with_capacity(1 << 16, input);
    let mut outcome = Ok(());
    each_record(longer, &mut |record| {
        if outcome.is_ok() {
            outcome = write_record(&mut input, record);
        }
    });
    // A program that ended early is noticed by its missing lines.
    let _ = outcome.and_then(|()| input.flush());
}

fn write_record(input: &mut impl Write, record: &Record) -> io::Result<()> {
    input.write_all(&record.image_length.to_le_bytes())?;
    input.write_all(&record.pagefile_length.to_le_bytes())?;
    input.write_all(&(record.sheet.len() as u64).to_le_bytes())?;
    input.write_all(record.sheet)
}

/// Makes the records a second time and compares their answers with the program's lines.
fn compare_lines(mut output: impl BufRead, slip: Slip, longer: bool) -> io::Result<Comparison> {
    let mut comparison = Comparison {
        cases: 0,
        answers: Tally::new("answer", answers()),
        bad_forms: FormTimes::new("sheet", &SHEET),
        bad_forms_with_mode: FormTimes::new("edition 2", &SHEET_WITH_MODE),
        runs: Tally::new("accepted, runs", ACCEPTED_RUN_COUNTS.to_vec()),
        modes: Tally::new("accepted, mode", MODES.to_vec()),
        differing: 0,
        shown: Vec::new(),
        missing: 0,
        extra: 0,
    };
    let mut outcome = Ok(());
    let mut line = Vec::new();
    each_record(longer, &mut |record| {
        if outcome.is_ok() {
            line.clear();
            outcome = output.read_until(b'\n', &mut line).map(|_| ());
            compare_line(&mut comparison, record, &line, slip);
        }
    });
    outcome?;
    line.clear();
    while output.read_until(b'\n', &mut line)? > 0 {
        comparison.extra += 1;
        line.clear();
    }
    Ok(comparison)
}

fn compare_line(comparison: &mut Comparison, record: &Record, line: &[u8], slip: Slip) {
    let answer = check_sheet(
        record.sheet,
        record.image_length,
        record.pagefile_length,
        slip,
    );
    let fault = answer.as_ref().err().copied().unwrap_or(0.into());
    comparison.answers.count(fault.number());
    for forms in [
        &mut comparison.bad_forms,
        &mut comparison.bad_forms_with_mode,
    ] {
        forms.count(record.sheet, fault.number(), fault.position);
    }
    if let Ok(case) = &answer {
        // Only a slip takes another mode.
        if MODES.contains(&case.mode) {
            comparison.modes.count(case.mode);
        }
        let count = case.runs.len() as u64;
        if ACCEPTED_RUN_COUNTS.contains(&count) {
            comparison.runs.count(count);
        }
    }
    comparison.cases += 1;
    if line.is_empty() {
        comparison.missing += 1;
        return;
    }
    let wanted = line_of(&answer);
    if line != wanted.as_bytes() {
        comparison.differing += 1;
        if comparison.shown.len() < MOST_SHOWN {
            comparison.shown.push(differing_case(record, line, &wanted));
        }
    }
}

/// The line of a sheet; a refusal has its position if it is one of those that tell it.
fn line_of(answer: &Result<Case, Fault>) -> String {
    match answer {
        Err(fault) if BAD_FORMS.contains(&fault.number()) || fault.position != 0 => {
            format!("{} {}\n", fault.refusal, fault.position)
        }
        Err(fault) => format!("{}\n", fault.refusal),
        Ok(case) => {
            let space = [case.directory_page, case.mode, case.place].map(|n| n.to_string());
            let mut line = format!("0 {} {}", space.join(" "), case.runs.len());
            for run in &case.runs {
                line += &format!(" {} {}", run.first_frame, run.pages);
            }
            line + "\n"
        }
    }
}

fn differing_case(record: &Record, line: &[u8], wanted: &str) -> String {
    let shown = [record.sheet, line, wanted.as_bytes()];
    let [sheet, line, wanted] = shown.map(|bytes| &bytes[..bytes.len().min(MOST_BYTES_SHOWN)]);
    format!(
        "sheet [{}] of {} bytes, image length 0x{:X} pagefile length 0x{:X}\n{}\n{}",
        hex(sheet),
        record.sheet.len(),
        record.image_length,
        record.pagefile_length,
        format_args!("  program:       \"{}\"", line.escape_ascii()),
        format_args!("  second reader: \"{}\"", wanted.escape_ascii()),
    )
}

/// Prints the table and every reason to fail; true if there is none.
fn report(comparison: &Comparison, status: ExitStatus) -> bool {
    print_table(&[&comparison.answers]);
    print_table(&[&comparison.runs]);
    print_table(&[&comparison.modes]);
    comparison.bad_forms.print();
    comparison.bad_forms_with_mode.print();
    comparison
        .shown
        .iter()
        .for_each(|case| println!("{}", case));
    let reasons = reasons_to_fail(comparison, status);
    reasons.iter().for_each(|reason| println!("{}", reason));
    if reasons.is_empty() {
        println!("sheets: {} cases agree", with_commas(comparison.cases));
    }
    reasons.is_empty()
}

fn reasons_to_fail(comparison: &Comparison, status: ExitStatus) -> Vec<String> {
    let mut reasons = Vec::new();
    if comparison.differing > 0 {
        reasons.push(format!("differs: {}", comparison.differing));
    }
    if comparison.missing > 0 {
        reasons.push(format!(
            "too few lines: {} of {} missing",
            with_commas(comparison.missing),
            with_commas(comparison.cases)
        ));
    }
    if comparison.extra > 0 {
        reasons.push(format!("too many lines: {} more", comparison.extra));
    }
    if !status.success() {
        reasons.push(format!("the program ended with {}", status));
    }
    reasons.extend(comparison.answers.reasons(&answers()));
    reasons.extend(comparison.runs.reasons(ACCEPTED_RUN_COUNTS));
    reasons.extend(comparison.modes.reasons(MODES));
    reasons.extend(comparison.bad_forms.reasons());
    reasons.extend(comparison.bad_forms_with_mode.reasons());
    for (sheet, image_length, line) in stated() {
        let ours = line_of(&check_sheet(sheet, image_length, 0, Slip::None));
        if ours != line {
            reasons.push(format!(
                "second reader: {} instead of {}",
                ours.trim_end(),
                line.trim_end()
            ));
        }
    }
    reasons
}

/// Answers that the papers themselves state: sheet, image length, line.
fn stated() -> Vec<(&'static [u8], u64, String)> {
    let (sheet, image_length, line) = P1;
    let refused = STATED_SHEETS.iter().chain(&STATED_WITH_MODE);
    let refused = refused.map(|(sheet, number, position)| {
        let line = match BAD_FORMS.contains(number) {
            true => format!("{} {}\n", number, position),
            false => format!("{}\n", number),
        };
        (*sheet, 0, line)
    });
    let p1 = (sheet, image_length, line.to_string());
    [p1].into_iter().chain(refused).collect()
}
