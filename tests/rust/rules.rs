//! What the rules fix: the numbers of the refusals, of kinds and editions, the ranges, and how buckets and
//! servers stand in lists. One place for each.

pub const HEADER: u32 = 1;
pub const LENGTH: u32 = 2;
pub const PAD: u32 = 3;
pub const LIST: u32 = 4;
pub const COUNT: u32 = 5;
pub const RANGE: u32 = 6;
pub const FORM: u32 = 7;
pub const UNBOUNDED: u32 = 8;
pub const LARGE: u32 = 9;
pub const ROOM: u32 = 10;

/// Kinds of a profile; the last two are those of a server.
pub const CURVE_KIND: u64 = 1;
pub const RATE_LATENCY_KIND: u64 = 2;
pub const PURE_DELAY_KIND: u64 = 3;

/// The editions of a profile's file. A pure delay came with the second.
pub const EDITIONS: [u64; 2] = [1, 2];

pub const RATE_END: u64 = 1 << 20;
pub const LATENCY_END: u64 = 1 << 20;
pub const BURST_END: u64 = 1 << 40;
pub const TICK_END: u64 = 1 << 40;
pub const FRAME_END: u64 = 1 << 40;
pub const MOST_BUCKETS: usize = 64;
pub const MOST_SERVERS: usize = 32;
pub const MOST_TEXT: usize = 1145;

/// Numbers for each bucket of a raw list, and of a curve's list.
pub const RAW_NUMBERS: usize = 2;
pub const CURVE_NUMBERS: usize = 2;

#[derive(Clone, Copy, PartialEq, Eq, Debug)]
pub struct Bucket {
    pub rate: u64,
    pub burst: u64,
}

pub fn bucket(rate: u64, burst: u64) -> Bucket {
    Bucket { rate, burst }
}

impl Bucket {
    pub fn in_range(&self) -> bool {
        self.rate < RATE_END && self.burst < BURST_END
    }

    pub fn plus(&self, other: Bucket) -> Bucket {
        bucket(self.rate + other.rate, self.burst + other.burst)
    }

    /// rate * (p/q) + burst, times q.
    pub fn at(&self, p: u128, q: u128) -> u128 {
        u128::from(self.rate) * p + u128::from(self.burst) * q
    }
}

/// The whole buckets of a raw list.
pub fn raw_buckets(list: &[u64]) -> Vec<Bucket> {
    list.chunks_exact(RAW_NUMBERS).map(|b| bucket(b[0], b[1])).collect()
}

pub fn raw_list(raw: &[Bucket]) -> Vec<u64> {
    raw.iter().flat_map(|b| [b.rate, b.burst]).collect()
}

/// The whole buckets of a curve's list.
pub fn curve_buckets(list: &[u64]) -> Vec<Bucket> {
    list.chunks_exact(CURVE_NUMBERS).map(|b| bucket(b[0], b[1])).collect()
}

pub fn curve_list(curve: &[Bucket]) -> Vec<u64> {
    curve.iter().flat_map(|b| [b.rate, b.burst]).collect()
}

/// A server of one of the two kinds.
#[derive(Clone, Copy, PartialEq, Eq, Debug)]
pub enum Server {
    RateLatency { rate: u64, latency: u64 },
    PureDelay { latency: u64 },
}

/// A rate-latency server.
pub fn server(rate: u64, latency: u64) -> Server {
    Server::RateLatency { rate, latency }
}

pub fn pure_delay(latency: u64) -> Server {
    Server::PureDelay { latency }
}

impl Server {
    /// None for a pure delay, which is not limited by any.
    pub fn rate(&self) -> Option<u64> {
        match *self {
            Server::RateLatency { rate, .. } => Some(rate),
            Server::PureDelay { .. } => None,
        }
    }

    pub fn latency(&self) -> u64 {
        match *self {
            Server::RateLatency { latency, .. } | Server::PureDelay { latency } => latency,
        }
    }

    pub fn with_latency(&self, latency: u64) -> Server {
        self.rate().map_or(pure_delay(latency), |rate| server(rate, latency))
    }

    pub fn in_range(&self) -> bool {
        let good_rate = |rate| (1..RATE_END).contains(&rate);
        self.rate().map_or(true, good_rate) && self.latency() < LATENCY_END
    }

    /// What it has served by p/q, times q; None where that is all there is, however much.
    pub fn served_at(&self, p: u64, q: u64) -> Option<u128> {
        let past = u128::from(p).saturating_sub(u128::from(self.latency()) * u128::from(q));
        match self.rate() {
            Some(rate) => Some(u128::from(rate) * past),
            None => (past == 0).then_some(0),
        }
    }

    /// What it has served by a tick.
    pub fn served(&self, tick: u64) -> Option<u128> {
        self.served_at(tick, 1)
    }
}

/// A server as it is passed to a call and told by one: three numbers, which may be none.
#[derive(Clone, Copy, PartialEq, Eq, Debug, Default)]
pub struct Passed {
    pub kind: u64,
    pub rate: u64,
    pub latency: u64,
}

impl Passed {
    /// The server that they are, if they are one and it is in range.
    pub fn server(&self) -> Option<Server> {
        let found = match *self {
            Passed { kind: RATE_LATENCY_KIND, rate, latency } => server(rate, latency),
            Passed { kind: PURE_DELAY_KIND, rate: 0, latency } => pure_delay(latency),
            _ => return None,
        };
        found.in_range().then_some(found)
    }
}

impl From<Server> for Passed {
    fn from(server: Server) -> Passed {
        match server {
            Server::RateLatency { rate, latency } => Passed { kind: RATE_LATENCY_KIND, rate, latency },
            Server::PureDelay { latency } => Passed { kind: PURE_DELAY_KIND, rate: 0, latency },
        }
    }
}

/// A link: its rate, and the longest frame, which its far end hands over at once.
#[derive(Clone, Copy, PartialEq, Eq, Debug, Default)]
pub struct Link {
    pub rate: u64,
    pub frame: u64,
}

impl Link {
    pub fn in_range(&self) -> bool {
        (1..RATE_END).contains(&self.rate) && self.frame < FRAME_END
    }

    pub fn bucket(&self) -> Bucket {
        bucket(self.rate, self.frame)
    }
}

/// Lines of the refusal table, a bit for each number, so that the lowest bit wins.
pub fn line(number: u32, holds: bool) -> u32 {
    u32::from(holds) << number
}

pub fn winner(lines: u32) -> u32 {
    if lines == 0 {
        0
    } else {
        lines.trailing_zeros()
    }
}
