//! The calls of a cluster, over any logger and workload.

use super::fault::Refusal;
use super::logger::{Event, Logger, MOST, Source};
use super::reader::Command;
use super::workload::{OUTSIDE, Workload};

pub type Answer = Result<u64, Refusal>;

/// What a host has in its memory.
#[derive(Default)]
struct Host<S> {
    state: S,
    /// Receipts by sender; the last place is the outside world's.
    taken: [usize; OUTSIDE + 1],
    receipts: usize,
    /// Bodies of its sends by destination.
    sent: [Vec<u64>; OUTSIDE],
    outputs: Vec<u64>,
}

/// What the outside world keeps of a host.
#[derive(Default)]
struct Outside {
    posts: Vec<u64>,
    released: usize,
}

struct Message {
    source: Source,
    body: u64,
}

pub struct Cluster<L, W: Workload> {
    n: usize,
    f: usize,
    whole: bool,
    logger: L,
    /// None for a host that is down.
    hosts: Vec<Option<Host<W::State>>>,
    outside: Vec<Outside>,
}

impl<L: Logger, W: Workload> Cluster<L, W> {
    pub fn open(n: usize, f: usize) -> Result<Self, Refusal> {
        check((2..=8).contains(&n), Refusal::HostCount)?;
        check((1..n).contains(&f), Refusal::CrashBound)?;
        Ok(Cluster {
            n,
            f,
            whole: true,
            logger: L::new(n, f),
            hosts: (0..n).map(|_| Some(Host::default())).collect(),
            outside: (0..n).map(|_| Outside::default()).collect(),
        })
    }

    fn post(&mut self, host: usize, body: u64) -> Answer {
        self.check_host(host)?;
        self.check_whole()?;
        let posts = &mut self.outside[host].posts;
        check(posts.len() < MOST, Refusal::PostsFull)?;
        posts.push(body);
        Ok(posts.len() as u64)
    }

    fn deliver(&mut self, host: usize, sender: usize) -> Answer {
        self.check_pair(host, sender)?;
        let message = self.deliverable(host, sender)?;
        self.carry(host, sender);
        self.note(host, message.source);
        self.take(host, &message);
        Ok(message.source.ssn as u64)
    }

    /// What a delivery does to the host itself is lost with it, so it is left out.
    fn cut(&mut self, host: usize, sender: usize, point: usize) -> Answer {
        self.check_pair(host, sender)?;
        check(point <= 3, Refusal::UnknownPoint)?;
        let message = self.deliverable(host, sender)?;
        if point >= 1 {
            self.carry(host, sender);
        }
        if point >= 2 {
            self.note(host, message.source);
        }
        self.go_down(host);
        Ok(0)
    }

    fn release(&mut self, host: usize) -> Answer {
        self.check_host(host)?;
        self.check_whole()?;
        let outputs = &self.up(host, Refusal::HostDown)?.outputs;
        let released = self.outside[host].released;
        let output = *outputs.get(released).ok_or(Refusal::NoOutput)?;
        self.logger.spread(host);
        self.outside[host].released += 1;
        Ok(output)
    }

    fn crash(&mut self, host: usize) -> Answer {
        self.check_host(host)?;
        self.check_whole()?;
        self.up(host, Refusal::HostDown)?;
        self.go_down(host);
        Ok(0)
    }

    fn recover(&mut self) -> Answer {
        self.check_whole()?;
        let down: Vec<usize> = (0..self.n).filter(|&host| self.hosts[host].is_none()).collect();
        check(!down.is_empty(), Refusal::NoneDown)?;
        // The receipts that each returning host has to replay, up to its target.
        let mut plans = Vec::new();
        for &host in &down {
            let found = (1..=MOST).map_while(|receipt| self.logger.find(Event { host, receipt }));
            plans.push((host, found.collect::<Vec<Source>>()));
            self.hosts[host] = Some(Host::default());
        }
        let targets: usize = plans.iter().map(|(_, sources)| sources.len()).sum();
        let mut replayed = 0;
        while let Some((host, message)) = plans.iter().find_map(|(host, sources)| self.replayable(*host, sources)) {
            self.take(host, &message);
            replayed += 1;
        }
        if replayed < targets {
            down.iter().for_each(|&host| self.hosts[host] = None);
            self.whole = false;
            return Err(Refusal::TargetMissed);
        }
        self.logger.rejoin();
        Ok(replayed as u64)
    }

    fn show(&self, host: usize) -> Answer {
        self.check_host(host)?;
        self.check_whole()?;
        Ok(W::show(&self.up(host, Refusal::HostDown)?.state))
    }

    fn check_host(&self, host: usize) -> Result<(), Refusal> {
        check(host < self.n, Refusal::UnknownHost)
    }

    fn check_pair(&self, host: usize, sender: usize) -> Result<(), Refusal> {
        self.check_host(host)?;
        check(sender == OUTSIDE || sender < self.n && sender != host, Refusal::UnknownSender)
    }

    fn check_whole(&self) -> Result<(), Refusal> {
        check(self.whole, Refusal::NotWhole)
    }

    fn up(&self, host: usize, otherwise: Refusal) -> Result<&Host<W::State>, Refusal> {
        self.hosts[host].as_ref().ok_or(otherwise)
    }

    /// The checks 6 to 10 of a delivery; the message that waits.
    fn deliverable(&self, host: usize, sender: usize) -> Result<Message, Refusal> {
        self.check_whole()?;
        let receiver = self.up(host, Refusal::HostDown)?;
        if sender != OUTSIDE {
            self.up(sender, Refusal::SenderDown)?;
        }
        let message = self.waiting(receiver, host, sender).ok_or(Refusal::NoMessage)?;
        check(receiver.receipts < MOST, Refusal::ReceiptsFull)?;
        Ok(message)
    }

    /// The first message from the sender that the receiver has not received.
    fn waiting(&self, receiver: &Host<W::State>, host: usize, sender: usize) -> Option<Message> {
        let messages = match sender {
            OUTSIDE => &self.outside[host].posts,
            _ => &self.hosts[sender].as_ref()?.sent[host],
        };
        let taken = receiver.taken[sender];
        let body = *messages.get(taken)?;
        Some(Message { source: Source { sender, ssn: taken + 1 }, body })
    }

    /// The message of the next receipt to replay, if it waits.
    fn replayable(&self, host: usize, sources: &[Source]) -> Option<(usize, Message)> {
        let receiver = self.hosts[host].as_ref()?;
        let source = *sources.get(receiver.receipts)?;
        let message = self.waiting(receiver, host, source.sender)?;
        (message.source == source).then_some((host, message))
    }

    fn carry(&mut self, host: usize, sender: usize) {
        if sender != OUTSIDE {
            self.logger.carry(sender, host);
        }
    }

    fn note(&mut self, host: usize, source: Source) {
        if let Some(receiver) = &self.hosts[host] {
            self.logger.note(Event { host, receipt: receiver.receipts + 1 }, source);
        }
    }

    fn take(&mut self, host: usize, message: &Message) {
        let Some(receiver) = &mut self.hosts[host] else { return };
        let sender = message.source.sender;
        let reaction = W::step(self.n, host, &mut receiver.state, sender, message.body);
        receiver.taken[sender] += 1;
        receiver.receipts += 1;
        if let Some((destination, body)) = reaction.send {
            receiver.sent[destination].push(body);
        }
        receiver.outputs.extend(reaction.output);
    }

    fn go_down(&mut self, host: usize) {
        self.hosts[host] = None;
        self.logger.lose(host);
        let down = self.hosts.iter().filter(|host| host.is_none()).count();
        self.whole &= down <= self.f;
    }
}

fn check(holds: bool, otherwise: Refusal) -> Result<(), Refusal> {
    if holds { Ok(()) } else { Err(otherwise) }
}

/// A cluster whose logger and workload are not named.
pub trait Calls {
    fn call(&mut self, command: Command) -> Answer;

    fn is_up(&self, host: usize) -> bool;

    /// Whether a delivery would be accepted.
    fn can_deliver(&self, host: usize, sender: usize) -> bool;

    fn has_output(&self, host: usize) -> bool;
}

impl<L: Logger, W: Workload> Calls for Cluster<L, W> {
    fn call(&mut self, command: Command) -> Answer {
        match command {
            Command::Post { host, body } => self.post(host, body),
            Command::Deliver { host, sender } => self.deliver(host, sender),
            Command::Cut { host, sender, point } => self.cut(host, sender, point),
            Command::Release { host } => self.release(host),
            Command::Crash { host } => self.crash(host),
            Command::Recover => self.recover(),
            Command::Show { host } => self.show(host),
        }
    }

    fn is_up(&self, host: usize) -> bool {
        self.hosts[host].is_some()
    }

    fn can_deliver(&self, host: usize, sender: usize) -> bool {
        self.deliverable(host, sender).is_ok()
    }

    fn has_output(&self, host: usize) -> bool {
        let outputs = self.hosts[host].as_ref().map_or(0, |host| host.outputs.len());
        outputs > self.outside[host].released
    }
}
