//! What came up while comparing.

use std::fmt;

/// The letters of the commands, in the order of their kinds.
const LETTERS: &[u8; 8] = b"OPDCRXVS";

#[derive(Default)]
pub struct Counts {
    pub scripts: u64,
    pub runs: u64,
    lines: u64,
    accepted: [u64; 8],
    refusals: [u64; 21],
    stops: [u64; 21],
    most_replayed: u64,
}

impl Counts {
    /// Counts the lines of a listing that both gave.
    pub fn listing(&mut self, listing: &[u8]) {
        let text = str::from_utf8(listing).expect("a listing is ASCII");
        for line in text.lines() {
            let mut parts = line.split(' ').skip(1);
            let letter = parts.next().unwrap_or_default().as_bytes()[0];
            let mut number = || parts.next().and_then(|part| part.parse::<u64>().ok()).expect("a number");
            let (refusal, answer) = (number(), number());
            self.lines += 1;
            if refusal != 0 {
                self.refusals[refusal as usize] += 1;
                continue;
            }
            let kind = LETTERS.iter().position(|&known| known == letter).expect("a letter of a command");
            self.accepted[kind] += 1;
            if letter == b'V' {
                self.most_replayed = self.most_replayed.max(answer);
            }
        }
    }

    pub fn stop(&mut self, number: u64) {
        self.stops[number as usize] += 1;
    }

    /// The numbers that did not come up: as a refusal for 3 to 14, as a stop for the others.
    pub fn missing(&self) -> Vec<usize> {
        let came_up = |&number: &usize| match number {
            3..=14 => self.refusals[number] == 0,
            _ => self.stops[number] == 0,
        };
        (1..=20).filter(came_up).collect()
    }
}

impl fmt::Display for Counts {
    fn fmt(&self, out: &mut fmt::Formatter) -> fmt::Result {
        writeln!(out, "{} scripts, {} lines; {} runs with buffers of all sizes", self.scripts, self.lines, self.runs)?;
        write!(out, "accepted:")?;
        for (letter, count) in LETTERS.iter().zip(self.accepted) {
            write!(out, " {} {count}", char::from(*letter))?;
        }
        writeln!(out, "; at most {} receipts replayed by one recover", self.most_replayed)?;
        writeln!(out, "number     lines refused      runs stopped")?;
        for number in 1..=20 {
            writeln!(out, "{number:>6} {:>17} {:>17}", self.refusals[number], self.stops[number])?;
        }
        write!(out, "no stop {:>34}", self.stops[0])
    }
}
