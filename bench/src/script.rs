//! Commands written as the bytes of a script.

use crate::model::{Command, LONGEST, OUTSIDE};

#[derive(Default)]
pub struct Script {
    pub bytes: Vec<u8>,
}

impl Script {
    /// A script that begins with an open: n, f, logger and workload.
    pub fn open(body: [u8; 4]) -> Self {
        let mut script = Script { bytes: vec![0] };
        script.bytes.extend(body);
        script
    }

    pub fn add(&mut self, command: Command) {
        let bytes = &mut self.bytes;
        match command {
            Command::Post { host, body } => {
                bytes.extend([1, host as u8]);
                bytes.extend(body.to_be_bytes());
            }
            Command::Deliver { host, sender } => bytes.extend([2, host as u8, sender as u8]),
            Command::Cut { host, sender, point } => bytes.extend([3, host as u8, sender as u8, point as u8]),
            Command::Release { host } => bytes.extend([4, host as u8]),
            Command::Crash { host } => bytes.extend([5, host as u8]),
            Command::Recover => bytes.push(6),
            Command::Show { host } => bytes.extend([7, host as u8]),
        }
    }

    /// Posts a body to the host, and delivers it if the host has taken all posts before.
    pub fn hand(&mut self, host: usize, body: u64) {
        self.add(Command::Post { host, body });
        self.add(Command::Deliver { host, sender: OUTSIDE });
    }

    /// Adds the commands again and again while they fit.
    pub fn fill(&mut self, round: &[Command]) {
        let mut one = Script::default();
        round.iter().for_each(|&command| one.add(command));
        while self.bytes.len() + one.bytes.len() <= LONGEST {
            self.bytes.extend(&one.bytes);
        }
    }
}
