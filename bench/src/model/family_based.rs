//! Family-based logging: a determinant travels with messages until f + 1 hosts are known to hold it.

use super::host_set::HostSet;
use super::logger::{Event, Logger, Source};

#[derive(Clone, Copy)]
struct Held {
    source: Source,
    known: HostSet,
}

/// The determinants that one host holds: by the host that received, then by receipt.
#[derive(Clone, Default)]
struct VolatileSet {
    by_host: [Vec<Option<Held>>; 8],
}

impl VolatileSet {
    fn get(&self, event: Event) -> Option<Held> {
        *self.by_host[event.host].get(event.receipt - 1)?
    }

    /// Holds the determinant from now on, and knows of these holders too.
    fn learn(&mut self, event: Event, source: Source, known: HostSet) {
        let receipts = &mut self.by_host[event.host];
        if receipts.len() < event.receipt {
            receipts.resize(event.receipt, None);
        }
        let held = receipts[event.receipt - 1].get_or_insert(Held { source, known });
        held.known = held.known.union(known);
    }

    fn iter_mut(&mut self) -> impl Iterator<Item = (Event, &mut Held)> {
        self.by_host.iter_mut().enumerate().flat_map(|(host, receipts)| {
            let places = receipts.iter_mut().enumerate();
            places.filter_map(move |(i, held)| Some((Event { host, receipt: i + 1 }, held.as_mut()?)))
        })
    }
}

pub struct FamilyBased {
    n: usize,
    f: usize,
    up: HostSet,
    sets: Vec<VolatileSet>,
}

impl Logger for FamilyBased {
    fn new(n: usize, f: usize) -> Self {
        FamilyBased { n, f, up: HostSet::first(n), sets: vec![VolatileSet::default(); n] }
    }

    fn carry(&mut self, from: usize, to: usize) {
        let Ok([giver, taker]) = self.sets.get_disjoint_mut([from, to]) else { return };
        for (event, held) in giver.iter_mut().filter(|(_, held)| held.known.len() <= self.f) {
            held.known = held.known.with(to);
            taker.learn(event, held.source, held.known);
        }
    }

    fn note(&mut self, event: Event, source: Source) {
        self.sets[event.host].learn(event, source, HostSet::default().with(event.host));
    }

    fn spread(&mut self, host: usize) {
        let mut set = std::mem::take(&mut self.sets[host]);
        for (event, held) in set.iter_mut() {
            let missing = (self.f + 1).saturating_sub(held.known.len());
            let others = self.up.iter().filter(|&other| !held.known.contains(other));
            let gained = others.take(missing).fold(HostSet::default(), HostSet::with);
            held.known = held.known.union(gained);
            for other in gained.iter() {
                self.sets[other].learn(event, held.source, held.known);
            }
        }
        self.sets[host] = set;
    }

    fn lose(&mut self, host: usize) {
        self.up = self.up.without(host);
        self.sets[host] = VolatileSet::default();
    }

    fn rejoin(&mut self) {
        let mut all = VolatileSet::default();
        for host in self.up.iter() {
            for (event, held) in self.sets[host].iter_mut() {
                all.learn(event, held.source, held.known);
            }
        }
        for host in (0..self.n).filter(|&host| !self.up.contains(host)) {
            let mut set = all.clone();
            for (_, held) in set.iter_mut() {
                held.known = held.known.with(host);
            }
            self.sets[host] = set;
        }
        self.up = HostSet::first(self.n);
    }

    fn find(&self, event: Event) -> Option<Source> {
        self.up.iter().find_map(|host| self.sets[host].get(event)).map(|held| held.source)
    }
}
