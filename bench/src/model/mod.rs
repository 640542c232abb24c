//! The rules of docs/ once more, in plain Rust: to compare the proved code with, and to time it against.

mod cluster;
mod family_based;
mod fault;
mod host_set;
mod listing;
mod logger;
mod reader;
#[cfg(test)]
mod tests;
mod workload;

use cluster::Cluster;
use family_based::FamilyBased;
use fault::Stop;
use listing::Listing;
use logger::Pessimistic;
use reader::Reader;
use workload::{Ledger, Spacing};

pub use cluster::Calls;
pub use fault::Refusal;
pub use reader::{Command, LoggerKind, Open, WorkloadKind};
pub use workload::OUTSIDE;

/// The most bytes of a script, and of a listing.
pub const LONGEST: usize = 65_536;

/// Plays a script: the bytes written, plus 2^32 times the number of the stop.
pub fn run(script: &[u8], listing: &mut [u8]) -> u64 {
    let mut lines = Listing::new(listing);
    let stop = play(script, &mut lines).err().map_or(0, Stop::number);
    lines.written() as u64 | stop << 32
}

fn play(script: &[u8], lines: &mut Listing) -> Result<(), Stop> {
    if script.len() > LONGEST || lines.capacity() > LONGEST {
        return Err(Stop::TooLong);
    }
    let mut commands = Reader::new(script);
    let mut cluster = open(commands.open()?)?;
    lines.add('O', Ok(0))?;
    for command in commands {
        let command = command?;
        lines.add(command.letter(), cluster.call(command))?;
    }
    Ok(())
}

pub fn open(open: Open) -> Result<Box<dyn Calls>, Refusal> {
    let Open { n, f, .. } = open;
    Ok(match (open.logger, open.workload) {
        (LoggerKind::Pessimistic, WorkloadKind::Ledger) => Box::new(Cluster::<Pessimistic, Ledger>::open(n, f)?),
        (LoggerKind::Pessimistic, WorkloadKind::Spacing) => Box::new(Cluster::<Pessimistic, Spacing>::open(n, f)?),
        (LoggerKind::FamilyBased, WorkloadKind::Ledger) => Box::new(Cluster::<FamilyBased, Ledger>::open(n, f)?),
        (LoggerKind::FamilyBased, WorkloadKind::Spacing) => Box::new(Cluster::<FamilyBased, Spacing>::open(n, f)?),
    })
}
