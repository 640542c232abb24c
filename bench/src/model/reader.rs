//! Commands, read from the bytes of a script.

use super::fault::Stop;

#[derive(Clone, Copy, Debug, PartialEq, Eq)]
pub enum LoggerKind {
    Pessimistic,
    FamilyBased,
}

#[derive(Clone, Copy, Debug, PartialEq, Eq)]
pub enum WorkloadKind {
    Ledger,
    Spacing,
}

#[derive(Clone, Copy, Debug, PartialEq, Eq)]
pub struct Open {
    pub n: usize,
    pub f: usize,
    pub logger: LoggerKind,
    pub workload: WorkloadKind,
}

/// A command after the first.
#[derive(Clone, Copy, Debug, PartialEq, Eq)]
pub enum Command {
    Post { host: usize, body: u64 },
    Deliver { host: usize, sender: usize },
    Cut { host: usize, sender: usize, point: usize },
    Release { host: usize },
    Crash { host: usize },
    Recover,
    Show { host: usize },
}

impl Command {
    pub fn letter(self) -> char {
        match self {
            Command::Post { .. } => 'P',
            Command::Deliver { .. } => 'D',
            Command::Cut { .. } => 'C',
            Command::Release { .. } => 'R',
            Command::Crash { .. } => 'X',
            Command::Recover => 'V',
            Command::Show { .. } => 'S',
        }
    }
}

/// First `open`; then it iterates over the other commands.
pub struct Reader<'a> {
    rest: &'a [u8],
}

impl<'a> Reader<'a> {
    pub fn new(script: &'a [u8]) -> Self {
        Reader { rest: script }
    }

    pub fn open(&mut self) -> Result<Open, Stop> {
        let [0] = self.body().map_err(|_| Stop::NoOpen)? else {
            return Err(Stop::NoOpen);
        };
        let [n, f, logger, workload] = self.body()?.map(usize::from);
        let logger = match logger {
            0 | 1 => LoggerKind::Pessimistic,
            2 => LoggerKind::FamilyBased,
            _ => return Err(Stop::UnknownRules),
        };
        let workload = match workload {
            1 => WorkloadKind::Ledger,
            2 => WorkloadKind::Spacing,
            _ => return Err(Stop::UnknownRules),
        };
        Ok(Open { n, f, logger, workload })
    }

    fn command(&mut self, kind: u8) -> Result<Command, Stop> {
        Ok(match kind {
            1 => {
                let host = self.number()?;
                Command::Post { host, body: u64::from_be_bytes(self.body()?) }
            }
            2 => Command::Deliver { host: self.number()?, sender: self.number()? },
            3 => Command::Cut { host: self.number()?, sender: self.number()?, point: self.number()? },
            4 => Command::Release { host: self.number()? },
            5 => Command::Crash { host: self.number()? },
            6 => Command::Recover,
            7 => Command::Show { host: self.number()? },
            _ => return Err(Stop::UnknownKind),
        })
    }

    fn number(&mut self) -> Result<usize, Stop> {
        let [byte] = self.body()?;
        Ok(byte.into())
    }

    fn body<const N: usize>(&mut self) -> Result<[u8; N], Stop> {
        let (body, rest) = self.rest.split_first_chunk().ok_or(Stop::BodyCutShort)?;
        self.rest = rest;
        Ok(*body)
    }
}

impl Iterator for Reader<'_> {
    type Item = Result<Command, Stop>;

    fn next(&mut self) -> Option<Self::Item> {
        let (&kind, rest) = self.rest.split_first()?;
        self.rest = rest;
        Some(self.command(kind))
    }
}
