//! The archive and the model on the same random scripts.

use std::fmt::Write;
use std::process::ExitCode;

use crate::counts::Counts;
use crate::model::LONGEST;
use crate::random::Random;
use crate::{archive, generate, model};

/// Bytes after the buffer that is handed over; nobody may write them.
const BEYOND: usize = 64;

/// The same buffer, once for each.
struct Buffers {
    ours: Vec<u8>,
    plain: Vec<u8>,
}

pub fn compare(scripts: u64, seed: u64) -> ExitCode {
    println!("seed {seed}");
    let mut random = Random::new(seed);
    let mut counts = Counts::default();
    let mut buffers = Buffers { ours: Vec::new(), plain: Vec::new() };
    for index in 0..scripts {
        let script = generate::script(&mut random);
        let mut written = 0;
        for turn in 0..4 {
            let size = if turn == 0 { LONGEST } else { awkward_size(&mut random, written) };
            let answer = match both(&mut buffers, &script, size, &mut random) {
                Ok(answer) => answer,
                Err(difference) => {
                    println!("script {index} of seed {seed}, a buffer of {size} bytes\n{difference}");
                    return ExitCode::FAILURE;
                }
            };
            counts.runs += 1;
            counts.stop(answer >> 32);
            if turn == 0 {
                written = answer as u32 as usize;
                counts.scripts += 1;
                counts.listing(&buffers.ours[..written]);
            }
        }
    }
    println!("{counts}");
    let missing = counts.missing();
    println!("no difference; did not come up: {missing:?} (14 cannot: both loggers keep their clauses)");
    if missing == [14] { ExitCode::SUCCESS } else { ExitCode::FAILURE }
}

/// A size of a buffer, where `written` bytes are the whole listing.
fn awkward_size(random: &mut Random, written: usize) -> usize {
    match random.below(20) {
        0 => 0,
        1 => 1,
        2 => random.choose(&[7, 8, 9]),
        3 if random.chance(10) => random.choose(&[LONGEST + 1, LONGEST + 100]),
        4..9 => written,
        9..14 => written.saturating_sub(1),
        14..16 => written + 1,
        _ => random.below(written + 1),
    }
}

/// Runs both on a buffer with a random pattern: the answer, or in what they differ.
fn both(buffers: &mut Buffers, script: &[u8], size: usize, random: &mut Random) -> Result<u64, String> {
    buffers.ours.resize(size + BEYOND, 0);
    random.fill(&mut buffers.ours);
    buffers.plain.clone_from(&buffers.ours);
    let ours = archive::run(script, &mut buffers.ours[..size]);
    let plain = model::run(script, &mut buffers.plain[..size]);
    if ours == plain && buffers.ours == buffers.plain {
        return Ok(ours);
    }
    Err(difference(script, (ours, &buffers.ours), (plain, &buffers.plain)))
}

fn difference(script: &[u8], ours: (u64, &[u8]), plain: (u64, &[u8])) -> String {
    let mut text = String::from("script:");
    for byte in script {
        let _ = write!(text, " {byte:02x}");
    }
    if let Some(place) = ours.1.iter().zip(plain.1).position(|(ours, plain)| ours != plain) {
        let _ = write!(text, "\nfirst difference at byte {place} of the buffer");
        let _ = write!(text, "\nours:  {}\nplain: {}", line_at(ours.1, place), line_at(plain.1, place));
    }
    for (name, (answer, buffer)) in [("ours", ours), ("plain", plain)] {
        let (stop, written) = (answer >> 32, answer as u32 as usize);
        let listing = String::from_utf8_lossy(&buffer[..written.min(buffer.len())]);
        let _ = write!(text, "\n{name}: stop {stop}, {written} bytes written\n{listing}");
    }
    text
}

/// The line that a byte of a buffer belongs to.
fn line_at(buffer: &[u8], place: usize) -> String {
    let start = buffer[..place].iter().rposition(|&byte| byte == b'\n').map_or(0, |end| end + 1);
    let line = buffer[start..].split(|&byte| byte == b'\n').next().unwrap_or_default();
    line.escape_ascii().to_string()
}
