//! The exported calls under test, one way for all.

use crate::narrow_answers::Calls;
use crate::second::sheet_writer::Given;
use crate::second::walk::Files;
use crate::{exports, exports_lists, exports_map, exports_runs, exports_times, exports_writer};

pub struct Exports;

impl Calls for Exports {
    fn resolve(&self, files: Files, address: u64) -> [u64; 3] {
        let said = exports::resolve(files.sheet, files.image, files.pagefile, address);
        [said.number, said.offset, said.entries]
    }

    fn page(&self, files: Files, address: u64) -> [u64; 3] {
        let said = exports::page(files.sheet, files.image, files.pagefile, address);
        [said.file, said.offset, said.length]
    }

    fn read(&self, files: Files, start: u64, n: u64, out: &mut [u8]) -> [u64; 3] {
        let said = exports::read(files.sheet, files.image, files.pagefile, start, n, out);
        [said.number, said.length, said.zeros]
    }

    fn map(&self, files: Files, start: u64, pages: u64, out: &mut [u8]) -> [u64; 2] {
        let said = exports_map::map(files.sheet, files.image, files.pagefile, start, pages, out);
        [said.number, said.length]
    }

    fn lookup(&self, map: &[u8], address: u64) -> [u64; 2] {
        let said = exports_map::lookup(map, address);
        [said.number, said.offset]
    }

    fn read_time(&self, files: Files, address: u64) -> [u64; 3] {
        let said = exports_times::read_time(files.sheet, files.image, files.pagefile, address);
        [
            said.number,
            said.time.seconds.to_bits(),
            said.time.ticks.to_bits(),
        ]
    }

    fn processor_block(&self, files: Files, from: u64) -> [u64; 3] {
        let said = exports_lists::processor_block(files.sheet, files.image, files.pagefile, from);
        [said.number, said.offset, said.entries]
    }

    fn process_list(&self, files: Files, head: u64, out: &mut [u64]) -> [u64; 2] {
        let said = exports_lists::process_list(files.sheet, files.image, files.pagefile, head, out);
        [said.number, said.length]
    }

    fn case(&self, files: Files, out: &mut [u64]) -> [u64; 5] {
        let lengths = [files.image, files.pagefile].map(|file| file.len() as u64);
        let said = exports_runs::case_runs(files.sheet, lengths[0], lengths[1], out);
        [
            said.number,
            said.directory,
            said.mode,
            said.place,
            said.length,
        ]
    }

    fn image_length(&self, sheet: &[u8]) -> [u64; 2] {
        let said = exports_runs::image_length(sheet);
        [said.number, said.length]
    }

    fn write_sheet(&self, given: &Given, out: &mut [u8]) -> [u64; 2] {
        let said = exports_writer::write_sheet(given, out);
        [said.number, said.length]
    }
}
