//! Scripts to time: each mix is a script of up to 65,536 bytes.

use crate::body::{BARLINE, STATEMENT, credit, transfer, width};
use crate::model::{Command, OUTSIDE};
use crate::script::Script;

const HOSTS: usize = 8;
const PESSIMISTIC: u8 = 1;
const FAMILY_BASED: u8 = 2;
const LEDGER: u8 = 1;
const SPACING: u8 = 2;

pub struct Mix {
    pub name: String,
    pub script: Vec<u8>,
}

pub fn all() -> Vec<Mix> {
    let mut mixes = Vec::new();
    for (logger, name) in [(PESSIMISTIC, "pessimistic"), (FAMILY_BASED, "family-based")] {
        let mut add =
            |what: &str, script: Script| mixes.push(Mix { name: format!("{what}, {name}"), script: script.bytes });
        add("an open alone", Script::open([8, 3, logger, LEDGER]));
        add("shows", shows(logger));
        add("refusals", refusals(logger));
        add("ledger: posts and deliveries, f = 3", ledger(logger, 3));
        add("spacing: chains over 8 hosts, f = 3", chains(logger, 3));
        add("spacing: chains over 8 hosts, f = 7", chains(logger, 7));
        add("ledger: statements released, f = 7", releases(logger));
        add("ledger: crash one, recover, f = 1", crash_one(logger));
        add("ledger: take all, crash, recover, f = 1", take_again(logger));
        add("spacing: cut after the carry, recover, f = 7", cut_again(logger));
        add("worst, spacing: crash 7, recover, f = 7", crash_seven(chains(logger, 7)));
        add("worst, ledger: crash 7, recover, f = 7", crash_seven(ledger(logger, 7)));
    }
    mixes
}

fn shows(logger: u8) -> Script {
    let mut script = ledger(logger, 3);
    script.fill(&all_hosts(|host| Command::Show { host }));
    script
}

/// Messages that do not wait, posts beyond the 64th, hosts that are not there.
fn refusals(logger: u8) -> Script {
    let mut script = Script::open([8, 3, logger, LEDGER]);
    for host in 0..HOSTS {
        (0..64).for_each(|_| script.hand(host, credit(1)));
    }
    let mut round = all_hosts(|host| Command::Deliver { host, sender: OUTSIDE });
    round.extend(all_hosts(|host| Command::Deliver { host, sender: (host + 1) % HOSTS }));
    round.extend(all_hosts(|host| Command::Post { host, body: credit(1) }));
    round.extend(all_hosts(|host| Command::Release { host }));
    round.extend([Command::Recover, Command::Show { host: HOSTS }]);
    script.fill(&round);
    script
}

/// Each host takes two credits and a transfer, then what its neighbour above transferred; at last it
/// releases a statement. 61 receipts at each host.
fn ledger(logger: u8, f: u8) -> Script {
    let mut script = Script::open([8, f, logger, LEDGER]);
    for round in 0..15 {
        for host in 0..HOSTS {
            script.hand(host, credit(100 + round));
            script.hand(host, credit(7));
            script.hand(host, transfer((host + HOSTS - 1) % HOSTS, 5 + round));
        }
        for host in 0..HOSTS {
            script.add(Command::Deliver { host, sender: (host + 1) % HOSTS });
        }
    }
    for host in 0..HOSTS {
        script.hand(host, STATEMENT);
        script.add(Command::Release { host });
    }
    script
}

/// 63 widths and a barline go from host to host; the last releases. All hosts have 64 receipts.
fn chains(logger: u8, f: u8) -> Script {
    let mut script = Script::open([8, f, logger, SPACING]);
    for turn in 0..64 {
        script.hand(0, if turn < 63 { width(0x3F80_0000 + turn) } else { BARLINE });
        for host in 1..HOSTS {
            script.add(Command::Deliver { host, sender: host - 1 });
        }
    }
    script.add(Command::Release { host: HOSTS - 1 });
    script
}

/// Each statement is released before the next is taken.
fn releases(logger: u8) -> Script {
    let mut script = Script::open([8, 7, logger, LEDGER]);
    for _ in 0..64 {
        for host in 0..HOSTS {
            script.hand(host, STATEMENT);
            script.add(Command::Release { host });
        }
    }
    script
}

fn crash_one(logger: u8) -> Script {
    let mut script = ledger(logger, 1);
    let mut round = Vec::new();
    for host in 0..HOSTS {
        round.extend([Command::Crash { host }, Command::Recover]);
    }
    script.fill(&round);
    script
}

/// A host takes 64 posts and crashes. Family-based: nobody else knows, so all wait again.
fn take_again(logger: u8) -> Script {
    let mut script = Script::open([8, 1, logger, LEDGER]);
    for host in 0..HOSTS {
        (0..64).for_each(|_| script.add(Command::Post { host, body: credit(1) }));
    }
    let mut round = Vec::new();
    for host in 0..HOSTS {
        round.extend([Command::Deliver { host, sender: OUTSIDE }; 64]);
        round.extend([Command::Crash { host }, Command::Recover]);
    }
    script.fill(&round);
    script
}

/// Host 7 goes down in a delivery again and again, when the determinants have been carried to it.
fn cut_again(logger: u8) -> Script {
    let mut script = Script::open([8, 7, logger, SPACING]);
    for turn in 0..63 {
        script.hand(0, width(0x3F80_0000 + turn));
        (1..HOSTS).for_each(|host| script.add(Command::Deliver { host, sender: host - 1 }));
    }
    script.hand(0, BARLINE);
    (1..HOSTS - 1).for_each(|host| script.add(Command::Deliver { host, sender: host - 1 }));
    script.fill(&[Command::Cut { host: 7, sender: 6, point: 1 }, Command::Recover]);
    script
}

/// All hosts but one crash together and are recovered; each time another one stays up.
fn crash_seven(mut script: Script) -> Script {
    let mut round = Vec::new();
    for stays_up in 0..HOSTS {
        let crashes = (0..HOSTS).filter(|&host| host != stays_up).map(|host| Command::Crash { host });
        round.extend(crashes.chain([Command::Recover]));
    }
    script.fill(&round);
    script
}

fn all_hosts(command: impl Fn(usize) -> Command) -> Vec<Command> {
    (0..HOSTS).map(command).collect()
}
