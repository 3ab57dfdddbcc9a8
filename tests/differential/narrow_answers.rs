//! What every exported call and its counterpart of the second reader say to one question.

use crate::narrow_cases::Question;
use crate::second::sheet_writer::{self, Given};
use crate::second::slip::Slip;
use crate::second::walk::{self, Files};
use crate::second::{bytes, lists, map, runs, times};

/// Bytes or numbers behind each lent buffer, which no call may touch.
const GUARD: usize = 16;

/// Every call, by the files and by what it is asked; each hands back its record's fields in order.
pub trait Calls {
    fn resolve(&self, files: Files, address: u64) -> [u64; 3];
    fn page(&self, files: Files, address: u64) -> [u64; 3];
    fn read(&self, files: Files, start: u64, n: u64, out: &mut [u8]) -> [u64; 3];
    fn map(&self, files: Files, start: u64, pages: u64, out: &mut [u8]) -> [u64; 2];
    fn lookup(&self, map: &[u8], address: u64) -> [u64; 2];
    /// The two doubles by their bits.
    fn read_time(&self, files: Files, address: u64) -> [u64; 3];
    fn processor_block(&self, files: Files, from: u64) -> [u64; 3];
    fn process_list(&self, files: Files, head: u64, out: &mut [u64]) -> [u64; 2];
    fn case(&self, files: Files, out: &mut [u64]) -> [u64; 5];
    fn image_length(&self, sheet: &[u8]) -> [u64; 2];
    fn write_sheet(&self, given: &Given, out: &mut [u8]) -> [u64; 2];
}

/// What the calls say, and the lent buffers as they leave them.
#[derive(PartialEq)]
pub struct Answers {
    pub resolved: [u64; 3],
    pub page: [u64; 3],
    pub read: [u64; 3],
    pub map: [u64; 2],
    /// Without a map there are none.
    pub lookups: Vec<[u64; 2]>,
    pub time: [u64; 3],
    pub block: [u64; 3],
    pub list: [u64; 2],
    pub case: [u64; 5],
    pub image_length: [u64; 2],
    pub written: [u64; 2],
    pub bytes: Vec<u8>,
    pub map_bytes: Vec<u8>,
    pub nodes: Vec<u64>,
    pub runs: Vec<u64>,
    pub sheet: Vec<u8>,
}

impl Answers {
    /// Asks every call, in buffers with the same bytes in and behind them.
    pub fn of(calls: &impl Calls, files: Files, question: &Question) -> Self {
        let mut bytes = pattern_bytes(question.room);
        let mut map_bytes = pattern_bytes(question.map_room);
        let mut nodes = pattern_words(question.list_room);
        let mut runs = pattern_words(question.case_room);
        let mut sheet = pattern_bytes(question.sheet.room);
        let given = question.sheet.given();
        let (start, n) = (question.start, question.n);
        let map_room = &mut map_bytes[..question.map_room];
        let map = calls.map(files, question.map_start, question.pages, map_room);
        let written = &map_room[..map_room.len().min(map[1] as usize)];
        let lookups = match map[0] {
            0 => question.lookups.to_vec(),
            _ => Vec::new(),
        };
        let lookups = lookups
            .iter()
            .map(|address| calls.lookup(written, *address));
        Answers {
            resolved: calls.resolve(files, question.address),
            page: calls.page(files, question.address),
            read: calls.read(files, start, n, &mut bytes[..question.room]),
            map,
            lookups: lookups.collect(),
            time: calls.read_time(files, question.time),
            block: calls.processor_block(files, question.from),
            list: calls.process_list(files, question.head, &mut nodes[..question.list_room]),
            case: calls.case(files, &mut runs[..question.case_room]),
            image_length: calls.image_length(files.sheet),
            written: calls.write_sheet(&given, &mut sheet[..question.sheet.room]),
            bytes,
            map_bytes,
            nodes,
            runs,
            sheet,
        }
    }

    /// The calls of which something differs from the other's, with what each says.
    pub fn differences(&self, other: &Answers) -> String {
        let mut text = String::new();
        for ((call, theirs), (_, ours)) in self.said().iter().zip(other.said()) {
            if *theirs != ours {
                text += &format!("\n  {}: exports {:X?}, second {:X?}", call, theirs, ours);
            }
        }
        for (call, same) in self.buffers(other) {
            if !same {
                text += &format!("\n  {}: the buffers differ", call);
            }
        }
        text
    }

    /// What each call says.
    fn said(&self) -> [(&'static str, Vec<u64>); 11] {
        [
            ("resolve", self.resolved.to_vec()),
            ("page", self.page.to_vec()),
            ("read", self.read.to_vec()),
            ("map", self.map.to_vec()),
            ("lookups", self.lookups.concat()),
            ("time", self.time.to_vec()),
            ("block", self.block.to_vec()),
            ("list", self.list.to_vec()),
            ("case", self.case.to_vec()),
            ("image length", self.image_length.to_vec()),
            ("write sheet", self.written.to_vec()),
        ]
    }

    /// Whether each call's buffer is left alike.
    fn buffers(&self, other: &Answers) -> [(&'static str, bool); 5] {
        [
            ("read", self.bytes == other.bytes),
            ("map", self.map_bytes == other.map_bytes),
            ("list", self.nodes == other.nodes),
            ("case", self.runs == other.runs),
            ("write sheet", self.sheet == other.sheet),
        ]
    }
}

/// Never 0, so that a byte left alone differs from a byte of 0.
fn pattern_bytes(room: usize) -> Vec<u8> {
    (0..room + GUARD)
        .map(|place| (place % 251) as u8 + 1)
        .collect()
}

fn pattern_words(room: usize) -> Vec<u64> {
    (0..room + GUARD)
        .map(|place| 0x5A5A_5A5A_0000_0000 + place as u64)
        .collect()
}

/// The second reader with a slip.
pub struct Second(pub Slip);

impl Calls for Second {
    fn resolve(&self, files: Files, address: u64) -> [u64; 3] {
        let said = walk::resolve(files, address, self.0);
        [said.number, said.offset, said.entries]
    }

    fn page(&self, files: Files, address: u64) -> [u64; 3] {
        let said = bytes::page(files, address, self.0);
        [said.file, said.offset, said.length]
    }

    fn read(&self, files: Files, start: u64, n: u64, out: &mut [u8]) -> [u64; 3] {
        let said = bytes::read(files, start, n, out, self.0);
        [said.number, said.length, said.zeros]
    }

    fn map(&self, files: Files, start: u64, pages: u64, out: &mut [u8]) -> [u64; 2] {
        let said = map::map(files, start, pages, out, self.0);
        [said.number, said.length]
    }

    fn lookup(&self, map: &[u8], address: u64) -> [u64; 2] {
        let said = map::lookup(map, address, self.0);
        [said.number, said.offset]
    }

    fn read_time(&self, files: Files, address: u64) -> [u64; 3] {
        let said = times::read_time(files, address, self.0);
        [said.number, said.seconds, said.ticks]
    }

    fn processor_block(&self, files: Files, from: u64) -> [u64; 3] {
        let said = lists::processor_block(files, from, self.0);
        [said.number, said.offset, said.entries]
    }

    fn process_list(&self, files: Files, head: u64, out: &mut [u64]) -> [u64; 2] {
        let said = lists::process_list(files, head, out, self.0);
        [said.number, said.length]
    }

    fn case(&self, files: Files, out: &mut [u64]) -> [u64; 5] {
        let lengths = [files.image, files.pagefile].map(|file| file.len() as u64);
        let said = runs::case_runs(files.sheet, lengths[0], lengths[1], out, self.0);
        [
            said.number,
            said.directory,
            said.mode,
            said.place,
            said.length,
        ]
    }

    fn image_length(&self, sheet: &[u8]) -> [u64; 2] {
        let said = runs::image_length(sheet, self.0);
        [said.number, said.length]
    }

    fn write_sheet(&self, given: &Given, out: &mut [u8]) -> [u64; 2] {
        let said = sheet_writer::write_sheet(given, out, self.0);
        [said.number, said.length]
    }
}
