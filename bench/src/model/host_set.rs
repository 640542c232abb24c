//! A set of hosts, a bit to each.

#[derive(Clone, Copy, Debug, Default, PartialEq, Eq)]
pub struct HostSet(u8);

impl HostSet {
    /// The hosts from 0 to n - 1.
    pub fn first(n: usize) -> Self {
        (0..n).fold(HostSet::default(), HostSet::with)
    }

    pub fn with(self, host: usize) -> Self {
        HostSet(self.0 | 1 << host)
    }

    pub fn without(self, host: usize) -> Self {
        HostSet(self.0 & !(1 << host))
    }

    pub fn union(self, other: HostSet) -> Self {
        HostSet(self.0 | other.0)
    }

    pub fn contains(self, host: usize) -> bool {
        self.0 & 1 << host != 0
    }

    pub fn len(self) -> usize {
        self.0.count_ones() as usize
    }

    /// Its members in ascending order.
    pub fn iter(self) -> impl Iterator<Item = usize> {
        (0..8).filter(move |&host| self.contains(host))
    }
}
