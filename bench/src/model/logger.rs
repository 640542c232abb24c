//! Who keeps which determinants.

/// The most receipts of a host, and the most posts to it.
pub const MOST: usize = 64;

/// Receipt `receipt`, counted from 1, of host `host`.
#[derive(Clone, Copy, Debug, PartialEq, Eq)]
pub struct Event {
    pub host: usize,
    pub receipt: usize,
}

/// The message that was received: number `ssn`, from 1, from `sender`. With its event this is a determinant.
#[derive(Clone, Copy, Debug, PartialEq, Eq)]
pub struct Source {
    pub sender: usize,
    pub ssn: usize,
}

pub trait Logger {
    fn new(n: usize, f: usize) -> Self;

    /// Host `to` is about to take a message from host `from`.
    fn carry(&mut self, from: usize, to: usize);

    fn note(&mut self, event: Event, source: Source);

    /// The host is about to release an output.
    fn spread(&mut self, host: usize);

    /// The host went down.
    fn lose(&mut self, host: usize);

    /// All hosts that are down come back.
    fn rejoin(&mut self);

    fn find(&self, event: Event) -> Option<Source>;
}

/// Notes everything in the stable store: by host, the sources of its receipts in order.
pub struct Pessimistic {
    store: Vec<Vec<Source>>,
}

impl Logger for Pessimistic {
    fn new(n: usize, _f: usize) -> Self {
        Pessimistic { store: vec![Vec::new(); n] }
    }

    fn carry(&mut self, _from: usize, _to: usize) {}

    fn note(&mut self, event: Event, source: Source) {
        let noted = &mut self.store[event.host];
        debug_assert_eq!(event.receipt, noted.len() + 1);
        noted.push(source);
    }

    fn spread(&mut self, _host: usize) {}

    fn lose(&mut self, _host: usize) {}

    fn rejoin(&mut self) {}

    fn find(&self, event: Event) -> Option<Source> {
        self.store[event.host].get(event.receipt - 1).copied()
    }
}
