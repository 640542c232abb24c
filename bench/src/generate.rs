//! Random scripts, steered by a cluster of the model so that deep states come up.

use crate::body;
use crate::model::{self, Calls, Command, LONGEST, LoggerKind, OUTSIDE, Open, Refusal, WorkloadKind};
use crate::random::Random;
use crate::script::Script;

/// How often each command is drawn, in the order post, deliver, cut, release, crash, recover, show.
const WEIGHTS: [[usize; 7]; 5] = [
    [30, 45, 3, 6, 6, 6, 4],
    [35, 60, 1, 2, 1, 1, 0],
    [20, 35, 15, 5, 5, 15, 5],
    [15, 30, 2, 3, 25, 20, 5],
    [25, 40, 3, 20, 5, 5, 2],
];

struct Style {
    weights: [usize; 7],
    /// Commands in a hundred whose parts are drawn without looking at the cluster.
    unsteered: usize,
    /// Whether more than f hosts may go down.
    beyond_f: bool,
    /// A host that takes most posts and deliveries.
    favourite: Option<usize>,
}

impl Style {
    fn draw(random: &mut Random, n: usize) -> Self {
        Style {
            weights: random.choose(&WEIGHTS),
            unsteered: random.choose(&[0, 2, 10]),
            beyond_f: random.chance(5),
            favourite: random.chance(30).then(|| random.below(n)),
        }
    }
}

struct Generator<'a> {
    random: &'a mut Random,
    style: Style,
    open: Open,
    cluster: Box<dyn Calls>,
}

/// A script to compare on: mostly steered, some damaged, some at random.
pub fn script(random: &mut Random) -> Vec<u8> {
    let mut bytes = match random.below(100) {
        0..2 => arbitrary(random),
        2..7 => small_numbers(random),
        7..12 => refused_open(random),
        _ => steered(random),
    };
    if random.chance(8) {
        damage(random, &mut bytes);
    }
    if random.below(500) == 0 {
        let length = random.choose(&[LONGEST - 1, LONGEST, LONGEST + 1, LONGEST + 9]);
        bytes.resize(length, 6);
    }
    bytes
}

fn arbitrary(random: &mut Random) -> Vec<u8> {
    let mut bytes = vec![0; random.below(40)];
    random.fill(&mut bytes);
    bytes
}

/// A good open, then bytes up to 9.
fn small_numbers(random: &mut Random) -> Vec<u8> {
    let (n, f) = bounds(random);
    let mut script = Script::open([n, f, random.below(3) as u8, 1 + random.below(2) as u8]);
    for _ in 0..random.below(120) {
        script.add(unsteered(random));
    }
    script.bytes
}

fn refused_open(random: &mut Random) -> Vec<u8> {
    let mut body = [0; 4].map(|_: u8| random.choose(&[0, 1, 2, 3, 7, 8, 9, 255]));
    if random.chance(50) {
        body[2..].copy_from_slice(&[random.below(3) as u8, 1 + random.below(2) as u8]);
    }
    let mut script = Script::open(body);
    script.fill(&[Command::Recover]);
    script.bytes.truncate(random.below(20));
    script.bytes
}

/// Lawful n and f: each f comes up, and so do many hosts.
fn bounds(random: &mut Random) -> (u8, u8) {
    let n = random.choose(&[2, 3, 3, 4, 5, 6, 7, 8, 8]);
    (n, 1 + random.below(usize::from(n) - 1) as u8)
}

fn steered(random: &mut Random) -> Vec<u8> {
    let (n, f) = bounds(random);
    let logger = random.choose(&[0, 1, 2, 2, 2, 2]);
    let workload = 1 + random.below(2) as u8;
    let open = Open {
        n: n.into(),
        f: f.into(),
        logger: if logger == 2 { LoggerKind::FamilyBased } else { LoggerKind::Pessimistic },
        workload: if workload == 1 { WorkloadKind::Ledger } else { WorkloadKind::Spacing },
    };
    let commands = match random.below(100) {
        0..30 => random.below(30),
        30..85 => random.below(300),
        85..99 => random.below(2_000),
        _ => LONGEST,
    };
    let cluster = model::open(open).expect("n and f are lawful");
    let style = Style::draw(random, open.n);
    let mut generator = Generator { random, style, open, cluster };
    let mut script = Script::open([n, f, logger, workload]);
    for _ in 0..commands {
        let length = script.bytes.len();
        let command = generator.command();
        script.add(command);
        if script.bytes.len() > LONGEST {
            script.bytes.truncate(length);
            break;
        }
        let refused = generator.cluster.call(command).is_err_and(|refusal| refusal == Refusal::NotWhole);
        if refused && generator.random.chance(20) {
            break;
        }
    }
    script.bytes
}

fn damage(random: &mut Random, bytes: &mut Vec<u8>) {
    for _ in 0..1 + random.below(3) {
        let place = random.below(bytes.len() + 1);
        match random.below(5) {
            0 => bytes.truncate(place),
            1 => bytes.insert(place, random.byte()),
            2 if place < bytes.len() => drop(bytes.remove(place)),
            3 if place < bytes.len() => bytes[place] ^= 1 << random.below(8),
            _ => bytes.push(random.choose(&[0, 1, 2, 3, 4, 8, 255])),
        }
    }
}

/// A command whose parts are up to 9, or seldom larger.
fn unsteered(random: &mut Random) -> Command {
    let mut part = || if random.chance(95) { random.below(10) } else { random.byte().into() };
    let (host, sender, point) = (part(), part(), part() % 6);
    match random.below(7) {
        0 => Command::Post { host, body: random.next() },
        1 => Command::Deliver { host, sender },
        2 => Command::Cut { host, sender, point },
        3 => Command::Release { host },
        4 => Command::Crash { host },
        5 => Command::Recover,
        _ => Command::Show { host },
    }
}

impl Generator<'_> {
    fn command(&mut self) -> Command {
        if self.random.chance(self.style.unsteered) {
            return unsteered(self.random);
        }
        let down = (0..self.open.n).filter(|&host| !self.cluster.is_up(host)).count();
        let may_go_down = down < self.open.f || self.style.beyond_f && self.random.chance(5);
        let (receiver, sender) = self.pair();
        match self.kind() {
            0 => Command::Post { host: self.host(), body: self.body() },
            2 if may_go_down => Command::Cut { host: receiver, sender, point: self.random.below(4) },
            3 => Command::Release { host: self.releasing() },
            4 if may_go_down => Command::Crash { host: self.random.below(self.open.n) },
            5 if down > 0 || self.random.chance(3) => Command::Recover,
            6 => Command::Show { host: self.random.below(self.open.n) },
            _ => Command::Deliver { host: receiver, sender },
        }
    }

    fn kind(&mut self) -> usize {
        let mut left = self.random.below(self.style.weights.iter().sum());
        let runs_out = |&weight: &usize| {
            let here = left < weight;
            left = left.saturating_sub(weight);
            here
        };
        self.style.weights.iter().position(runs_out).unwrap_or(1)
    }

    fn host(&mut self) -> usize {
        let other = self.random.below(self.open.n);
        self.style.favourite.filter(|_| self.random.chance(70)).unwrap_or(other)
    }

    /// A host and a sender from which a message waits, if there is such a pair: often two hosts.
    fn pair(&mut self) -> (usize, usize) {
        let favourite = self.style.favourite.filter(|_| self.random.chance(60));
        let mut ready = Vec::new();
        for host in 0..self.open.n {
            let senders = (0..self.open.n).chain([OUTSIDE]).filter(|&sender| sender != host);
            ready.extend(senders.filter(|&sender| self.cluster.can_deliver(host, sender)).map(|sender| (host, sender)));
        }
        let among_hosts = self.random.chance(60);
        let wanted = |&&(host, sender): &&(usize, usize)| {
            favourite.is_none_or(|favourite| favourite == host) && (sender != OUTSIDE || !among_hosts)
        };
        let best: Vec<_> = ready.iter().filter(wanted).copied().collect();
        match (best.is_empty(), ready.is_empty()) {
            (false, _) => self.random.choose(&best),
            (true, false) => self.random.choose(&ready),
            (true, true) => (self.host(), self.random.choose(&[0, 1, OUTSIDE, OUTSIDE])),
        }
    }

    /// A host with an output to release, if there is one.
    fn releasing(&mut self) -> usize {
        let ready: Vec<usize> = (0..self.open.n).filter(|&host| self.cluster.has_output(host)).collect();
        if ready.is_empty() { self.random.below(self.open.n) } else { self.random.choose(&ready) }
    }

    fn body(&mut self) -> u64 {
        let body = match self.open.workload {
            WorkloadKind::Ledger => self.ledger_body(),
            WorkloadKind::Spacing => self.spacing_body(),
        };
        // Bytes 5 and 6 have no meaning.
        if self.random.chance(5) { body ^ (self.random.next() & 0xFFFF) << 40 } else { body }
    }

    fn ledger_body(&mut self) -> u64 {
        let random = &mut *self.random;
        let targets = if random.chance(95) { self.open.n } else { 256 };
        let target = random.below(targets);
        match random.below(100) {
            0..20 => body::credit(1 + random.below(1_000) as u32),
            20..30 => body::credit(1 + random.below(4) as u32),
            30..35 => body::credit(random.next() as u32),
            35..60 => body::transfer(target, 1 + random.below(50) as u32),
            60..80 => body::transfer(target, 1 + random.below(4) as u32),
            80..84 => body::transfer(target, random.choose(&[0, 1, 1_000, u32::MAX])),
            84..96 => body::STATEMENT | random.next() & 0xFFFF_FFFF,
            96..98 => 3 << 56 | random.next() & 0xFFFF_FFFF,
            _ => random.next(),
        }
    }

    fn spacing_body(&mut self) -> u64 {
        let random = &mut *self.random;
        match random.below(100) {
            0..30 => body::width(0x3980_0000 + random.below(0x0C00_0001) as u32),
            30..45 => body::width(random.choose(&[0x4580_0000, 0x3980_0000, 0x3F80_0000, 0x3400_0000, 0, 1])),
            45..55 => body::width(random.next() as u32 >> 1),
            55..62 => {
                body::width(random.choose(&[0x4580_0001, 0x8000_0000, 0x7F80_0000, 0x7FC0_0000, 0xC000_0000, u32::MAX]))
            }
            62..96 => body::BARLINE | random.next() & 0xFF_FFFF_FFFF,
            _ => random.next(),
        }
    }
}
