//! What hosts do with messages.

/// The outside world as a sender.
pub const OUTSIDE: usize = 8;

#[derive(Clone, Copy, Debug, Default, PartialEq, Eq)]
pub struct Reaction {
    /// A destination and a body.
    pub send: Option<(usize, u64)>,
    pub output: Option<u64>,
}

pub trait Workload {
    /// The state of a host; the default is the first state.
    type State: Default;

    /// Host `host` of `n` takes a message.
    fn step(n: usize, host: usize, state: &mut Self::State, sender: usize, body: u64) -> Reaction;

    fn show(state: &Self::State) -> u64;
}

/// Byte 7 of a body.
fn kind(body: u64) -> u64 {
    body >> 56
}

pub struct Ledger;

impl Workload for Ledger {
    /// The balance.
    type State = u64;

    fn step(n: usize, host: usize, balance: &mut u64, sender: usize, body: u64) -> Reaction {
        let amount = body & 0xFFFF_FFFF;
        let target = (body >> 32 & 0xFF) as usize;
        let mut reaction = Reaction::default();
        match (kind(body), sender == OUTSIDE) {
            (1, true) | (3, false) => *balance = balance.wrapping_add(amount),
            (2, true) if target < n && target != host && (1..=*balance).contains(&amount) => {
                *balance -= amount;
                reaction.send = Some((target, 3 << 56 | amount));
            }
            (4, true) => reaction.output = Some(*balance),
            _ => {}
        }
        reaction
    }

    fn show(balance: &u64) -> u64 {
        *balance
    }
}

/// The bits of 4,096.0.
const WIDEST: u32 = 0x4580_0000;

#[derive(Default)]
pub struct Line {
    position: f32,
    greatest_width: f32,
}

pub struct Spacing;

impl Workload for Spacing {
    type State = Line;

    fn step(n: usize, host: usize, line: &mut Line, _sender: usize, body: u64) -> Reaction {
        let bits = body as u32;
        match kind(body) {
            1 if bits <= WIDEST => {
                let width = f32::from_bits(bits);
                line.position += width;
                line.greatest_width = line.greatest_width.max(width);
            }
            2 => {}
            _ => return Reaction::default(),
        }
        let last = host + 1 == n;
        Reaction {
            send: (!last).then_some((host + 1, body)),
            output: (last && kind(body) == 2).then(|| Self::show(line)),
        }
    }

    fn show(line: &Line) -> u64 {
        u64::from(line.greatest_width.to_bits()) << 32 | u64::from(line.position.to_bits())
    }
}
