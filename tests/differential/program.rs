//! Runs the small program on cases with stated answers, and on files and input that it must cope with.

#[path = "../common"]
mod common {
    pub mod codes;
}
mod ignored_bits;
mod program_cases;
mod reserved_bits;
mod tables;

use common::codes::{address_numbers, STATE_NOT_FOLLOWED};
use program_cases::Stated;
use std::fs;
use std::io::{self, Write};
use std::path::{Path, PathBuf};
use std::process::{Command, ExitCode, Stdio};
use std::thread;
use std::time::Duration;
use tables::{sheet_of, Case, Tables, USER};

const USAGE: &str =
    "usage: program PROGRAM [--broken N]   (--broken: states the Nth answer wrongly)";

/// How many bytes the three files may have together.
const MOST_BYTES: usize = 65_536;

/// How much of a difference is printed.
const MOST_SHOWN: usize = 400;

/// P4 of the paper.
const P4: u64 = 0x0000_8000_0000_0000;

fn main() -> ExitCode {
    let (program, broken) = match read_arguments(std::env::args().skip(1)) {
        Ok(arguments) => arguments,
        Err(why) => {
            eprintln!("program: {}\n{}", why, USAGE);
            return ExitCode::from(2);
        }
    };
    match Runs::new(program, broken).and_then(all_runs) {
        Ok(true) => ExitCode::SUCCESS,
        Ok(false) => ExitCode::from(1),
        Err(error) => {
            eprintln!("program: {}", error);
            ExitCode::from(2)
        }
    }
}

fn read_arguments(
    mut words: impl Iterator<Item = String>,
) -> Result<(PathBuf, Option<usize>), String> {
    let mut program = None;
    let mut broken = None;
    while let Some(word) = words.next() {
        match word.as_str() {
            "--broken" => {
                let number = words.next().and_then(|number| number.parse().ok());
                broken = Some(number.ok_or("--broken needs a number")?);
            }
            _ if word.starts_with("--") || program.is_some() => {
                return Err(format!("unexpected {}", word));
            }
            _ => program = Some(PathBuf::from(word)),
        }
    }
    Ok((program.ok_or("no program given")?, broken))
}

fn all_runs(mut runs: Runs) -> io::Result<bool> {
    let groups = program_cases::groups().into_iter();
    let groups = groups.chain(ignored_bits::groups());
    for group in groups.chain(reserved_bits::groups()) {
        runs.write_case(&group.case)?;
        runs.answers(group.what, &group.stated)?;
    }
    bad_sheets(&mut runs)?;
    limits(&mut runs)?;
    what_cannot_be_read(&mut runs)?;
    empty_files(&mut runs)?;
    input(&mut runs)?;
    runs.report()
}

/// A folder with the three files, and what came of the runs so far.
struct Runs {
    program: PathBuf,
    folder: PathBuf,
    broken: Option<usize>,
    runs: usize,
    stated: usize,
    seen: Vec<u64>,
    differing: usize,
}

impl Runs {
    fn new(program: PathBuf, broken: Option<usize>) -> io::Result<Self> {
        let program = program.canonicalize()?;
        let folder = std::env::temp_dir().join(format!("program-{}", std::process::id()));
        fs::create_dir(&folder)?;
        Ok(Runs {
            program,
            folder,
            broken,
            runs: 0,
            stated: 0,
            seen: Vec::new(),
            differing: 0,
        })
    }

    fn path(&self, name: &str) -> PathBuf {
        self.folder.join(name)
    }

    fn files(&self) -> Vec<PathBuf> {
        ["sheet", "image", "pagefile"]
            .map(|name| self.path(name))
            .to_vec()
    }

    fn write_case(&self, case: &Case) -> io::Result<()> {
        self.write_files(&case.sheet(), &case.image, &case.pagefile)
    }

    fn write_files(&self, sheet: &[u8], image: &[u8], pagefile: &[u8]) -> io::Result<()> {
        fs::write(self.path("sheet"), sheet)?;
        fs::write(self.path("image"), image)?;
        fs::write(self.path("pagefile"), pagefile)
    }

    /// Asks all addresses of a case in one run.
    fn answers(&mut self, what: &str, stated: &[Stated]) -> io::Result<()> {
        let addresses: Vec<u64> = stated.iter().map(|stated| stated.address).collect();
        let lines: Vec<String> = stated
            .iter()
            .map(|stated| self.line(stated.answer))
            .collect();
        let output = self.run(&self.files(), vec![input_of(&addresses)])?;
        let printed: Vec<&str> = output.split_inclusive('\n').collect();
        if printed.len() != lines.len() {
            self.differs(&format!(
                "{}: {} lines for {} addresses",
                what,
                printed.len(),
                lines.len()
            ));
        }
        for ((stated, line), printed) in stated.iter().zip(&lines).zip(&printed) {
            if line != printed {
                self.differs(&format!(
                    "{}: 0x{:X} ({}): stated {:?}, printed {:?}",
                    what, stated.address, stated.why, line, printed
                ));
            }
        }
        Ok(())
    }

    /// Asks addresses that all have one answer, in one run.
    fn same_answer(&mut self, what: &str, addresses: &[u64], answer: [u64; 3]) -> io::Result<()> {
        let stated: Vec<Stated> = addresses
            .iter()
            .map(|address| Stated {
                address: *address,
                answer,
                why: String::new(),
            })
            .collect();
        self.answers(what, &stated)
    }

    /// Runs with P4 on standard input, and nothing may be printed.
    fn nothing(&mut self, what: &str, arguments: &[PathBuf]) -> io::Result<()> {
        self.printed(what, arguments, vec![input_of(&[P4])], String::new())
    }

    /// Runs on input in pieces, and just this may be printed.
    fn printed(
        &mut self,
        what: &str,
        arguments: &[PathBuf],
        pieces: Vec<Vec<u8>>,
        lines: String,
    ) -> io::Result<()> {
        let output = self.run(arguments, pieces)?;
        if output != lines {
            self.differs(&format!(
                "{}: stated {:?}, printed {:?}",
                what, lines, output
            ));
        }
        Ok(())
    }

    /// The line of a stated answer; the broken one has an entry too many.
    fn line(&mut self, [number, offset, entries]: [u64; 3]) -> String {
        self.stated += 1;
        self.seen.push(number);
        let wrong = (self.broken == Some(self.stated)) as u64;
        format!("{} {} {}\n", number, offset, entries + wrong)
    }

    fn run(&mut self, arguments: &[PathBuf], pieces: Vec<Vec<u8>>) -> io::Result<String> {
        self.runs += 1;
        let mut child = Command::new(&self.program)
            .args(arguments)
            .stdin(Stdio::piped())
            .stdout(Stdio::piped())
            .stderr(Stdio::piped())
            .spawn()?;
        let input = child.stdin.take().expect("standard input is a pipe");
        let writer = thread::spawn(move || write_pieces(input, &pieces));
        let output = child.wait_with_output()?;
        writer.join().expect("the writer does not panic");
        if !output.status.success() || !output.stderr.is_empty() {
            let stderr = output.stderr.escape_ascii();
            self.differs(&format!(
                "ended with {}, standard error \"{}\"",
                output.status, stderr
            ));
        }
        Ok(String::from_utf8_lossy(&output.stdout).into_owned())
    }

    fn differs(&mut self, what: &str) {
        self.differing += 1;
        println!("{}", what.chars().take(MOST_SHOWN).collect::<String>());
    }

    fn report(self) -> io::Result<bool> {
        fs::remove_dir_all(&self.folder)?;
        let unseen: Vec<u64> = address_numbers()
            .into_iter()
            .chain([STATE_NOT_FOLLOWED])
            .filter(|number| !self.seen.contains(number))
            .collect();
        if !unseen.is_empty() {
            println!("no answer is stated for {:?}", unseen);
        }
        if self.differing > 0 {
            println!("differs: {}", self.differing);
        }
        let broken = self.broken.unwrap_or(1);
        let broken_is_stated = (1..=self.stated).contains(&broken);
        if !broken_is_stated {
            println!("there are only {} answers", self.stated);
        }
        let passed = unseen.is_empty() && self.differing == 0 && broken_is_stated;
        if passed {
            println!(
                "program: {} stated answers and {} runs agree",
                self.stated, self.runs
            );
        }
        Ok(passed)
    }
}

/// Writes each piece by itself; a program that has nothing to print need not read them.
fn write_pieces(mut input: impl Write, pieces: &[Vec<u8>]) {
    for (place, piece) in pieces.iter().enumerate() {
        if place > 0 {
            thread::sleep(Duration::from_millis(20));
        }
        if input.write_all(piece).and_then(|()| input.flush()).is_err() {
            return;
        }
    }
}

fn input_of(addresses: &[u64]) -> Vec<u8> {
    addresses
        .iter()
        .flat_map(|address| address.to_le_bytes())
        .collect()
}

/// A good case, and an address of it that is found at image offset 0x5123 after four entries.
fn good_case() -> (Case, u64) {
    let mut tables = Tables::new();
    let page = tables.last(0x10_5001);
    (tables.case, USER + page + 0x123)
}

/// A bad sheet has its number for each address, before the address is looked at, and for 11 and 18 the position too.
#[rustfmt::skip]
fn bad_sheets(runs: &mut Runs) -> io::Result<()> {
    let (case, found) = good_case();
    let sheet = case.sheet();
    let short_image = &case.image[4096..];
    let cut_pagefile = &case.pagefile[1..];
    let sheets: [(Vec<u8>, &[u8], &[u8], u64, &str); 13] = [
        (sheet[..5].to_vec(), &case.image, &case.pagefile, 10, "the last length is missing"),
        (sheet_of(&[3, 0x100, 1, 0x100, 12]), &case.image, &case.pagefile, 12, "edition 3"),
        (sheet_of(&[2, 0x100, 0, 0, 1, 0x100, 12]), &case.image, &case.pagefile, 12, "edition 2 with mode 0"),
        (sheet_of(&[2, 0x100, 3, 0, 1, 0x100, 12]), &case.image, &case.pagefile, 12, "mode 3"),
        (sheet_of(&[2, 0x100, 1, 1, 1, 0x100, 12]), &case.image, &case.pagefile, 12, "a place in mode 1"),
        (sheet_of(&[2, 0x100, 2, 128, 1, 0x100, 12]), &case.image, &case.pagefile, 12, "place 128"),
        (sheet_of(&[2, 0x100, 2, 127, 1, 0x100, 12]), &case.image, cut_pagefile, 16, "place 127 is judged good"),
        (sheet_of(&[1, 0x100, 1001]), &case.image, &case.pagefile, 12, "1,001 runs"),
        (sheet_of(&[1, 0x100, 1, 0x100, 0]), &case.image, &case.pagefile, 13, "length 0"),
        ([&sheet[..], &[0]].concat(), &case.image, &case.pagefile, 14, "a byte behind the last field"),
        (sheet.clone(), short_image, &case.pagefile, 15, "the image has a page less than the runs"),
        (sheet.clone(), short_image, cut_pagefile, 15, "15 is judged before 16"),
        (sheet.clone(), &case.image, cut_pagefile, 16, "the pagefile's length is no multiple of 4,096"),
    ];
    for (sheet, image, pagefile, number, what) in sheets {
        runs.write_files(&sheet, image, pagefile)?;
        runs.same_answer(what, &[found, P4, 0], [number, 0, 0])?;
    }
    for (sheet, number, position, what) in BAD_NUMBERS {
        runs.write_files(sheet, &case.image, &case.pagefile)?;
        runs.same_answer(what, &[found, P4, 0], [number, position, 0])?;
    }
    Ok(())
}

/// Sheets with a number at fault (02, order 9): the number that is printed, and the offset.
#[rustfmt::skip]
const BAD_NUMBERS: [(&[u8], u64, u64, &str); 20] = [
    (&[0x80, 0x00], 18, 0, "P10: not the shortest form"),
    (&[0x81, 0x80, 0x80, 0x80, 0x80, 0x80, 0x00], 11, 0, "the edition in seven groups"),
    (&[0x01, 0x80, 0x82, 0x00, 0x01, 0x00, 0x0C], 18, 1, "the directory page with a needless group"),
    (&[0x01, 0x80, 0x80, 0x80, 0x80, 0x80, 0x80], 11, 1, "the directory page, ending with the sixth group"),
    (&[0x01, 0x80, 0x02, 0x81, 0x80, 0x80, 0x80, 0x80, 0x00], 18, 3, "the run count in six groups"),
    (&[0x01, 0x80, 0x02, 0xFF, 0xFF, 0xFF, 0xFF, 0xFF, 0xFF], 11, 3, "the run count over six groups"),
    (&[0x01, 0x80, 0x02, 0x01, 0x80, 0x00, 0x0C], 18, 4, "the first gap with a needless group"),
    (&[0x01, 0x80, 0x02, 0x01, 0x80, 0x80, 0x80, 0x80, 0x80, 0x80, 0x01], 11, 4, "the first gap over six groups"),
    (&[0x01, 0x80, 0x02, 0x01, 0x80, 0x02, 0x8C, 0x00], 18, 6, "the first length with a needless group"),
    (&[0x01, 0x80, 0x02, 0x01, 0x80, 0x02, 0x8C, 0x80, 0x80, 0x80, 0x80, 0x80, 0x00], 11, 6, "the first length over six groups"),
    (&[0x01, 0x00, 0x02, 0x00, 0x01, 0x81, 0x00], 18, 5, "a later gap with a needless group"),
    (&[0x01, 0x00, 0x02, 0x00, 0x01, 0x81, 0x80, 0x80, 0x80, 0x80, 0x80], 11, 5, "a later gap over six groups"),
    (&[0x01, 0x80, 0x80, 0x80, 0x80, 0x80], 10, 0, "five groups, then the end: no position"),
    (&[0x01, 0x00, 0x01, 0x00, 0x80, 0x80, 0x80, 0x80, 0x80, 0x02], 12, 0, "2^36 in six groups: no position"),
    (&[0x03, 0x80, 0x00], 12, 0, "the edition is judged before a later number"),
    (&[0x02, 0x80, 0x02, 0x82, 0x00, 0x00], 18, 3, "the mode with a needless group"),
    (&[0x02, 0x80, 0x02, 0x02, 0xC1, 0x80, 0x80, 0x80, 0x80, 0x80], 11, 4, "the place over six groups"),
    (&[0x02, 0x80, 0x02, 0x00, 0x80, 0x00], 12, 0, "the mode is judged before the place"),
    (&[0x02, 0x80, 0x02, 0x01, 0x01, 0x80, 0x00], 12, 0, "the place is judged before the run count"),
    (&[0x01, 0x00, 0x02, 0x00, 0x00, 0x80, 0x00], 13, 0, "the first run is judged before a later number"),
];

/// 65,536 bytes together are read, one more is not. No good sheet comes out at 65,536: a filler makes it bad.
fn limits(runs: &mut Runs) -> io::Result<()> {
    let (case, found) = good_case();
    let sheet = case.sheet();
    let filler = vec![0; MOST_BYTES - sheet.len() - case.image.len() - case.pagefile.len()];
    let one_more = [&filler[..], &[0]].concat();
    for (place, number) in [(0, 14), (1, 15), (2, 16)] {
        for filler in [&filler, &one_more] {
            let mut files = [sheet.clone(), case.image.clone(), case.pagefile.clone()];
            files[place].extend(filler);
            runs.write_files(&files[0], &files[1], &files[2])?;
            let bytes: usize = files.iter().map(Vec::len).sum();
            let what = format!("{} bytes, the filler in file {}", bytes, place + 1);
            if bytes == MOST_BYTES {
                runs.same_answer(&what, &[found, P4], [number, 0, 0])?;
            } else {
                runs.nothing(&what, &runs.files())?;
            }
        }
    }
    // One file has all bytes; the empty sheet is 10.
    for (place, number) in [(0, 14), (1, 10), (2, 10)] {
        for bytes in [MOST_BYTES, MOST_BYTES + 1, 4 * MOST_BYTES] {
            let mut files = [Vec::new(), Vec::new(), Vec::new()];
            files[place] = vec![1; bytes];
            runs.write_files(&files[0], &files[1], &files[2])?;
            let what = format!("{} bytes, all in file {}", bytes, place + 1);
            if bytes == MOST_BYTES {
                runs.same_answer(&what, &[P4], [number, 0, 0])?;
            } else {
                runs.nothing(&what, &runs.files())?;
            }
        }
    }
    Ok(())
}

/// A file or an argument that is missing, or a directory: no output.
fn what_cannot_be_read(runs: &mut Runs) -> io::Result<()> {
    runs.write_case(&good_case().0)?;
    for place in 0..3 {
        let mut files = runs.files();
        files[place] = runs.path("missing");
        runs.nothing(&format!("file {} is missing", place + 1), &files)?;
        files[place] = runs.folder.clone();
        runs.nothing(&format!("file {} is a directory", place + 1), &files)?;
        files[place] = PathBuf::new();
        runs.nothing(&format!("the name of file {} is empty", place + 1), &files)?;
        files[place] = Path::new("/").join("a".repeat(5000));
        runs.nothing(
            &format!("the name of file {} is too long", place + 1),
            &files,
        )?;
        let given = &runs.files()[..place];
        runs.nothing(&format!("{} arguments", place), given)?;
    }
    Ok(())
}

/// A file of length 0 is not missing.
fn empty_files(runs: &mut Runs) -> io::Result<()> {
    let (mut case, found) = good_case();
    case.pagefile.clear();
    case.put(0x10_3000 + 8 * 3, 0x1_0000_0080);
    runs.write_case(&case)?;
    runs.same_answer(
        "empty pagefile, found in the image",
        &[found],
        [1, 0x5123, 4],
    )?;
    runs.same_answer("empty pagefile, past its end", &[USER + 0x3000], [27, 0, 4])?;
    runs.write_files(&case.sheet(), &[], &[])?;
    runs.same_answer("empty image", &[found], [15, 0, 0])?;
    runs.write_files(&[], &case.image, &[])?;
    runs.same_answer("empty sheet", &[found], [10, 0, 0])?;
    runs.write_files(&[], &[], &[])?;
    runs.same_answer("three empty files", &[found, P4], [10, 0, 0])
}

/// Standard input: P4 alone, a rest, pieces, and many addresses.
fn input(runs: &mut Runs) -> io::Result<()> {
    let (case, found) = good_case();
    runs.write_case(&case)?;
    let files = runs.files();
    runs.printed(
        "P4 alone",
        &files,
        vec![input_of(&[P4])],
        "20 0 0\n".to_string(),
    )?;
    runs.printed("no address", &files, vec![Vec::new()], String::new())?;
    for rest in 1..8 {
        let what = format!("a rest of {} bytes", rest);
        let bytes = vec![0xFF; rest];
        runs.printed(&what, &files, vec![bytes.clone()], String::new())?;
        let input = [input_of(&[found, P4]), bytes].concat();
        runs.printed(
            &what,
            &files,
            vec![input],
            "1 20771 4\n20 0 0\n".to_string(),
        )?;
    }
    let input = input_of(&[found, P4, 0]);
    let lines = "1 20771 4\n20 0 0\n22 0 3\n";
    for sizes in [
        vec![3, 13, 8],
        vec![7, 1, 1, 15],
        vec![1; 24],
        vec![8, 8, 8],
    ] {
        let mut rest = &input[..];
        let mut pieces = Vec::new();
        for size in &sizes {
            let (piece, behind) = rest.split_at(*size);
            pieces.push(piece.to_vec());
            rest = behind;
        }
        let what = format!("input in pieces of {:?}", sizes);
        runs.printed(&what, &files, pieces, lines.to_string())?;
    }
    let many = input.repeat(5000);
    runs.printed("15,000 addresses", &files, vec![many], lines.repeat(5000))
}
