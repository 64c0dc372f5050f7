//! Backends and the selectors over them: by weight for a hash or in turn, by a ring, and by loads.

use std::collections::hash_map::DefaultHasher;
use std::collections::{BTreeMap, BTreeSet, HashSet};
use std::fmt;
use std::hash::{Hash, Hasher};
use std::net::{IpAddr, SocketAddr};
use std::sync::OnceLock;
use std::vec;

#[derive(Clone, PartialEq, Eq, PartialOrd, Ord, Hash)]
pub enum Address {
    Inet(SocketAddr),
    Unix(Box<str>),
}

impl Address {
    pub fn parse(text: &str) -> Option<Address> {
        match text.strip_prefix("unix:") {
            Some("") => None,
            Some(path) => Some(Address::Unix(path.into())),
            None => match text.parse().ok()? {
                SocketAddr::V6(inet) if inet.scope_id() != 0 => None,
                inet => Some(Address::Inet(inet)),
            },
        }
    }
}

#[derive(Clone, PartialEq, Eq, PartialOrd, Ord, Hash)]
pub struct Backend {
    pub address: Address,
    pub weight: u64,
}

impl Backend {
    fn hash_key(&self) -> u64 {
        let mut hasher = DefaultHasher::new();
        self.hash(&mut hasher);
        hasher.finish()
    }
}

impl fmt::Display for Backend {
    fn fmt(&self, out: &mut fmt::Formatter<'_>) -> fmt::Result {
        match &self.address {
            Address::Inet(inet) => write!(out, "{inet}/{}", self.weight),
            Address::Unix(path) => write!(out, "unix:{path}/{}", self.weight),
        }
    }
}

#[derive(Clone, Copy)]
pub enum Kind {
    Fnv,
    RoundRobin,
    Ketama,
    Least,
}

/// Why a selector can't be built.
pub enum Unbuildable {
    TooManyBackends,
    WeightTooLarge,
    TooManyPoints,
}

/// Where the places of a weighted selector lead: written out, or by their sums where that would take too much.
enum Places {
    Expanded(Vec<u16>),
    Sums(Vec<u64>),
}

const MOST_EXPANDED: u64 = 1 << 26;

enum Method {
    Weighted { in_turn: bool, places: Places, total: u64 },
    Ring(Vec<(u32, u32)>),
    Loads,
}

pub struct Selector {
    backends: Vec<Backend>,
    method: Method,
    ticket: u64,
}

/// How busy each backend is; 0 where nothing is said.
pub type Loads = BTreeMap<Backend, u64>;

impl Selector {
    pub fn build(kind: Kind, set: &BTreeSet<Backend>) -> Result<Selector, Unbuildable> {
        let backends: Vec<Backend> = set.iter().cloned().collect();
        let method = match kind {
            Kind::Fnv => weighted(&backends, false)?,
            Kind::RoundRobin => weighted(&backends, true)?,
            Kind::Ketama => ring(&backends)?,
            Kind::Least => Method::Loads,
        };
        Ok(Selector { backends, method, ticket: 0 })
    }

    /// The first accepted one of the distinct candidates for the key, of which at most `limit` are looked at.
    pub fn select(
        &mut self,
        key: &[u8],
        limit: u64,
        loads: &Loads,
        accept: impl Fn(&Backend) -> bool,
    ) -> Option<&Backend> {
        let mut walk = match &self.method {
            Method::Weighted { in_turn, .. } => Walk::First(draw(*in_turn, &mut self.ticket, key)),
            Method::Ring(points) => {
                let place = crc(key);
                Walk::Point(points.partition_point(|(point, _)| *point < place))
            }
            Method::Loads => Walk::Listed(by_load(&self.backends, loads).into_iter()),
        };
        let mut seen = HashSet::new();
        for step in 0.. {
            let index = walk.next(&self.method, &mut self.ticket, self.backends.len())?;
            if step >= limit {
                return None;
            }
            let backend = &self.backends[index];
            if seen.insert(backend.hash_key()) && accept(backend) {
                return Some(&self.backends[index]);
            }
        }
        None
    }
}

/// Where a walk is: before its first word's candidate, after a word, before a point, or in a list of indexes.
enum Walk {
    First(u64),
    After(u64),
    Point(usize),
    Listed(vec::IntoIter<usize>),
}

impl Walk {
    fn next(&mut self, method: &Method, ticket: &mut u64, count: usize) -> Option<usize> {
        match method {
            Method::Weighted { total: 0, .. } => None,
            Method::Weighted { in_turn, places, total } => match *self {
                Walk::First(word) => {
                    *self = Walk::After(word);
                    Some(place(places, word % total))
                }
                Walk::After(word) => {
                    let word = draw(*in_turn, ticket, &word.to_le_bytes());
                    *self = Walk::After(word);
                    Some((word % count as u64) as usize)
                }
                Walk::Point(_) | Walk::Listed(_) => None,
            },
            Method::Ring(points) => {
                let Walk::Point(at) = *self else { return None };
                let (_, owner) = points.get(at).or(points.first())?;
                *self = Walk::Point(if at < points.len() { at + 1 } else { 1 });
                Some(*owner as usize)
            }
            Method::Loads => match self {
                Walk::Listed(order) => order.next(),
                _ => None,
            },
        }
    }
}

/// The backends of a weight above 0, by their load for each unit of weight.
fn by_load(backends: &[Backend], loads: &Loads) -> Vec<usize> {
    let weighed = backends.iter().enumerate().filter(|(_, backend)| backend.weight > 0);
    let mut read: Vec<(usize, u64, u64)> =
        weighed.map(|(index, backend)| (index, backend.weight, loads.get(backend).copied().unwrap_or(0))).collect();
    read.sort_unstable_by(|(index, weight, load), (other, other_weight, other_load)| {
        let this = u128::from(*load) * u128::from(*other_weight);
        this.cmp(&(u128::from(*other_load) * u128::from(*weight))).then(index.cmp(other))
    });
    read.into_iter().map(|(index, ..)| index).collect()
}

fn place(places: &Places, place: u64) -> usize {
    match places {
        Places::Expanded(list) => usize::from(list[place as usize]),
        Places::Sums(sums) => sums.partition_point(|sum| *sum <= place),
    }
}

fn draw(in_turn: bool, ticket: &mut u64, key: &[u8]) -> u64 {
    if in_turn {
        let drawn = *ticket;
        *ticket = ticket.wrapping_add(1);
        drawn
    } else {
        key.iter().fold(0xcbf29ce484222325, |hash, byte| (hash ^ u64::from(*byte)).wrapping_mul(0x100000001b3))
    }
}

fn weighted(backends: &[Backend], in_turn: bool) -> Result<Method, Unbuildable> {
    if backends.len() > 65535 {
        return Err(Unbuildable::TooManyBackends);
    }
    let mut sums = Vec::with_capacity(backends.len());
    let mut total = 0u64;
    for backend in backends {
        total = total.checked_add(backend.weight).ok_or(Unbuildable::WeightTooLarge)?;
        sums.push(total);
    }
    let places = if total > MOST_EXPANDED {
        Places::Sums(sums)
    } else {
        let indexes = (0u16..).zip(backends);
        Places::Expanded(
            indexes.flat_map(|(index, backend)| std::iter::repeat_n(index, backend.weight as usize)).collect(),
        )
    };
    Ok(Method::Weighted { in_turn, places, total })
}

/// 160 points for each unit of weight of an internet backend; the backend of the greatest weight stands for its address, and
/// the least address owns an equal point.
fn ring(backends: &[Backend]) -> Result<Method, Unbuildable> {
    let on_ring = backends.iter().filter(|backend| matches!(backend.address, Address::Inet(_)));
    let weight: u128 = on_ring.map(|backend| u128::from(backend.weight)).sum();
    if 160 * weight > u128::from(u32::MAX) {
        return Err(Unbuildable::TooManyPoints);
    }
    let mut points = Vec::with_capacity(160 * weight as usize);
    for (index, backend) in backends.iter().enumerate() {
        let Address::Inet(inet) = backend.address else { continue };
        if backends.get(index + 1).is_some_and(|next| next.address == backend.address) {
            continue;
        }
        let text = match inet.ip() {
            IpAddr::V4(ip) => format!("{ip}\0{}", inet.port()),
            IpAddr::V6(ip) => format!("{ip}\0{}", inet.port()),
        };
        let fed = crc_fed(u32::MAX, text.as_bytes());
        let mut point = 0u32;
        for _ in 0..160 * backend.weight {
            point = !crc_fed(fed, &point.to_le_bytes());
            points.push((point, index as u32));
        }
    }
    points.sort_unstable();
    points.dedup_by_key(|(point, _)| *point);
    Ok(Method::Ring(points))
}

fn crc(bytes: &[u8]) -> u32 {
    !crc_fed(u32::MAX, bytes)
}

fn crc_fed(state: u32, bytes: &[u8]) -> u32 {
    static TABLE: OnceLock<[u32; 256]> = OnceLock::new();
    let table = TABLE.get_or_init(|| {
        std::array::from_fn(|byte| {
            (0..8).fold(byte as u32, |crc, _| if crc & 1 == 1 { (crc >> 1) ^ 0xedb88320 } else { crc >> 1 })
        })
    });
    bytes.iter().fold(state, |crc, byte| (crc >> 8) ^ table[usize::from(crc as u8 ^ byte)])
}
