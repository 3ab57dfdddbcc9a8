//! How often each number came up, and whether that is often enough.

use super::print::with_commas;

/// How often each number has to come up.
pub const LEAST_TIMES: u64 = 100;

/// The times of each number that can come up somewhere.
pub struct Tally {
    pub what: &'static str,
    numbers: Vec<u64>,
    times: Vec<u64>,
    unlisted: u64,
}

impl Tally {
    pub fn new(what: &'static str, numbers: Vec<u64>) -> Self {
        Tally {
            what,
            times: vec![0; numbers.len()],
            numbers,
            unlisted: 0,
        }
    }

    pub fn count(&mut self, number: u64) {
        match self.numbers.iter().position(|other| *other == number) {
            Some(place) => self.times[place] += 1,
            None => self.unlisted += 1,
        }
    }

    /// The times of a number, nothing if it cannot come up.
    fn times_text(&self, number: u64) -> String {
        let place = self.numbers.iter().position(|other| *other == number);
        place.map_or(String::new(), |place| with_commas(self.times[place]))
    }

    /// A reason to fail for each of these numbers that came up too rarely, and for numbers that cannot come up.
    pub fn reasons(&self, wanted: &[u64]) -> Vec<String> {
        self.reasons_below(LEAST_TIMES, wanted)
    }

    /// The same with so many times in place of the usual ones.
    pub fn reasons_below(&self, least: u64, wanted: &[u64]) -> Vec<String> {
        let unlisted = (self.unlisted > 0)
            .then(|| format!("{}: {} numbers are not listed", self.what, self.unlisted));
        let times = self.numbers.iter().zip(&self.times);
        let rare = times
            .filter(|(number, times)| wanted.contains(number) && **times < least)
            .map(|(number, times)| {
                format!(
                    "{}: {} came up {} times, wanted {}",
                    self.what, number, times, least
                )
            });
        unlisted.into_iter().chain(rare).collect()
    }
}

/// Prints a line for each number and a column for each tally.
pub fn print_table(tallies: &[&Tally]) {
    let mut numbers: Vec<u64> = tallies
        .iter()
        .flat_map(|tally| tally.numbers.iter().copied())
        .collect();
    numbers.sort();
    numbers.dedup();
    let headings = tallies.iter().map(|tally| tally.what.to_string());
    println!("{}", line("number", headings));
    for number in numbers {
        let times = tallies.iter().map(|tally| tally.times_text(number));
        println!("{}", line(&number.to_string(), times));
    }
}

fn line(first: &str, columns: impl Iterator<Item = String>) -> String {
    let columns: Vec<String> = columns.map(|column| format!("{:>16}", column)).collect();
    format!("{:>6}{}", first, columns.concat())
}
