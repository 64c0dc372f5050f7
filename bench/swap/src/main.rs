//! A plain balancer over `arc-swap` that threads select from while another one updates it each 10 milliseconds:
//! plainswap KIND BACKENDS THREADS SECONDS [flips] prints how many selections a second all threads made together.
//! KIND is fnv (by a hash of the key), rr (in turn), random, ketama (a ring of 160 points for each backend) or least (the fewest
//! connections, by loads that are all 0); all weights are 1, and every other update leaves one backend out. With `flips` the first backend
//! becomes unhealthy or healthy with each tenth update.

use arc_swap::ArcSwap;
use std::cell::Cell;
use std::collections::hash_map::DefaultHasher;
use std::collections::{BTreeMap, BTreeSet, HashMap, HashSet};
use std::env;
use std::hash::{Hash, Hasher};
use std::net::SocketAddr;
use std::process;
use std::sync::OnceLock;
use std::sync::atomic::{AtomicBool, AtomicU64, AtomicUsize, Ordering};
use std::sync::Arc;
use std::thread;
use std::time::{Duration, Instant};

#[derive(Clone, PartialEq, Eq, PartialOrd, Ord, Hash)]
struct Backend {
    addr: SocketAddr,
    weight: usize,
    ext: Option<Box<BTreeMap<String, Vec<u8>>>>,
}

impl Backend {
    fn hash_key(&self) -> u64 {
        let mut hasher = DefaultHasher::new();
        self.addr.hash(&mut hasher);
        self.weight.hash(&mut hasher);
        hasher.finish()
    }
}

#[derive(Clone, Copy, PartialEq)]
enum Kind {
    Fnv,
    RoundRobin,
    Random,
    Ketama,
    Least,
}

thread_local! {
    static STATE: Cell<u64> = const { Cell::new(0x9e37_79b9_7f4a_7c15) };
}

/// A random word of the thread's own generator (xorshift).
fn random() -> u64 {
    STATE.with(|state| {
        let mut word = state.get();
        word ^= word << 13;
        word ^= word >> 7;
        word ^= word << 17;
        state.set(word);
        word
    })
}

fn crc(bytes: &[u8]) -> u32 {
    !crc_fed(u32::MAX, bytes)
}

fn crc_fed(state: u32, bytes: &[u8]) -> u32 {
    static TABLE: OnceLock<[u32; 256]> = OnceLock::new();
    let table = TABLE.get_or_init(|| {
        std::array::from_fn(|byte| {
            (0..8).fold(byte as u32, |crc, _| if crc & 1 == 1 { (crc >> 1) ^ 0xedb8_8320 } else { crc >> 1 })
        })
    });
    bytes.iter().fold(state, |crc, byte| (crc >> 8) ^ table[usize::from(crc as u8 ^ byte)])
}

/// 160 points for each unit of weight, in order; the least address owns an equal point.
fn ring(backends: &[Backend]) -> Vec<(u32, u32)> {
    let mut points = Vec::new();
    for (index, backend) in backends.iter().enumerate() {
        let text = format!("{}\0{}", backend.addr.ip(), backend.addr.port());
        let fed = crc_fed(u32::MAX, text.as_bytes());
        let mut point = 0u32;
        for _ in 0..160 * backend.weight {
            point = !crc_fed(fed, &point.to_le_bytes());
            points.push((point, index as u32));
        }
    }
    points.sort_unstable();
    points.dedup_by_key(|(point, _)| *point);
    points
}

fn fnv(key: &[u8]) -> u64 {
    key.iter().fold(0xcbf2_9ce4_8422_2325, |hash, byte| (hash ^ u64::from(*byte)).wrapping_mul(0x100_0000_01b3))
}

struct Selector {
    kind: Kind,
    backends: Box<[Backend]>,
    expanded: Box<[u16]>,
    points: Box<[(u32, u32)]>,
    ticket: AtomicUsize,
}

impl Selector {
    fn build(kind: Kind, set: &BTreeSet<Backend>) -> Selector {
        let backends: Box<[Backend]> = set.iter().cloned().collect();
        let mut expanded = Vec::new();
        for (index, backend) in backends.iter().enumerate() {
            expanded.extend((0..backend.weight).map(|_| index as u16));
        }
        let points = if kind == Kind::Ketama { ring(&backends) } else { Vec::new() };
        Selector { kind, backends, expanded: expanded.into(), points: points.into(), ticket: AtomicUsize::new(0) }
    }

    fn word(&self, key: &[u8]) -> u64 {
        match self.kind {
            Kind::Random => random(),
            Kind::Fnv | Kind::Ketama | Kind::Least => fnv(key),
            Kind::RoundRobin => self.ticket.fetch_add(1, Ordering::Relaxed) as u64,
        }
    }

    /// The backends by their load for each unit of weight.
    fn by_load(&self, loads: &HashMap<u64, AtomicU64>) -> Vec<usize> {
        let mut read: Vec<(usize, u64, u64)> = self
            .backends
            .iter()
            .enumerate()
            .map(|(index, backend)| {
                let load = loads.get(&backend.hash_key()).map_or(0, |load| load.load(Ordering::Relaxed));
                (index, backend.weight as u64, load)
            })
            .collect();
        read.sort_unstable_by(|(index, weight, load), (other, other_weight, other_load)| {
            let this = u128::from(*load) * u128::from(*other_weight);
            this.cmp(&(u128::from(*other_load) * u128::from(*weight))).then(index.cmp(other))
        });
        read.into_iter().map(|(index, ..)| index).collect()
    }

    /// The first accepted of the backends at these places, each once.
    fn first_of(&self, places: impl Iterator<Item = usize>, accept: impl Fn(&Backend) -> bool) -> Option<Backend> {
        let mut seen = HashSet::new();
        for (step, place) in places.enumerate() {
            let backend = &self.backends[place];
            if step == 0 && accept(backend) {
                return Some(backend.clone());
            }
            if seen.insert(backend.hash_key()) && step > 0 && accept(backend) {
                return Some(backend.clone());
            }
        }
        None
    }

    fn select(
        &self,
        key: &[u8],
        limit: usize,
        loads: &HashMap<u64, AtomicU64>,
        accept: impl Fn(&Backend) -> bool,
    ) -> Option<Backend> {
        match self.kind {
            Kind::Ketama => {
                let hash = crc(key);
                let at = self.points.partition_point(|(point, _)| *point < hash);
                let owners = self.points[at..].iter().chain(&self.points[..at]);
                return self.first_of(owners.take(limit).map(|(_, owner)| *owner as usize), accept);
            }
            Kind::Least => return self.first_of(self.by_load(loads).into_iter().take(limit), accept),
            Kind::Fnv | Kind::RoundRobin | Kind::Random => {}
        }
        let mut seen = HashSet::new();
        let mut word = self.word(key);
        for step in 0..limit {
            let backend = if step == 0 {
                let place = word as usize % self.expanded.len().max(1);
                &self.backends[usize::from(*self.expanded.get(place)?)]
            } else {
                word = self.word(&word.to_le_bytes());
                &self.backends[word as usize % self.backends.len()]
            };
            if step == 0 && accept(backend) {
                return Some(backend.clone());
            }
            if seen.insert(backend.hash_key()) && step > 0 && accept(backend) {
                return Some(backend.clone());
            }
        }
        None
    }
}

struct Balancer {
    kind: Kind,
    selector: ArcSwap<Selector>,
    health: ArcSwap<HashMap<u64, Arc<AtomicBool>>>,
    loads: ArcSwap<HashMap<u64, AtomicU64>>,
}

impl Balancer {
    fn update(&self, set: &BTreeSet<Backend>) {
        let old = self.health.load();
        let health = set
            .iter()
            .map(|backend| {
                let key = backend.hash_key();
                (key, old.get(&key).cloned().unwrap_or_else(|| Arc::new(AtomicBool::new(true))))
            })
            .collect();
        self.health.store(Arc::new(health));
        self.selector.store(Arc::new(Selector::build(self.kind, set)));
    }

    fn flip(&self, backend: &Backend) {
        if let Some(ready) = self.health.load().get(&backend.hash_key()) {
            ready.fetch_xor(true, Ordering::Relaxed);
        }
    }

    fn select(&self, key: &[u8], limit: usize) -> Option<Backend> {
        let health = self.health.load();
        let selector = self.selector.load();
        let loads = self.loads.load();
        selector.select(key, limit, &loads, |backend| {
            health.get(&backend.hash_key()).is_some_and(|ready| ready.load(Ordering::Relaxed))
        })
    }
}

fn members(count: usize) -> BTreeSet<Backend> {
    (0..count)
        .map(|i| Backend { addr: SocketAddr::from(([10, 0, (i / 256) as u8, (i % 256) as u8], 80)), weight: 1, ext: None })
        .collect()
}

fn main() {
    let mut words: Vec<String> = env::args().skip(1).collect();
    let flips = words.pop_if(|word| word == "flips").is_some();
    let numbers: Vec<usize> = words.iter().skip(1).filter_map(|word| word.parse().ok()).collect();
    let (kind, [backends, threads, seconds]) = match (words.first().map(String::as_str), numbers.as_slice()) {
        (Some("fnv"), [b, t, s]) => (Kind::Fnv, [*b, *t, *s]),
        (Some("rr"), [b, t, s]) => (Kind::RoundRobin, [*b, *t, *s]),
        (Some("random"), [b, t, s]) => (Kind::Random, [*b, *t, *s]),
        (Some("ketama"), [b, t, s]) => (Kind::Ketama, [*b, *t, *s]),
        (Some("least"), [b, t, s]) => (Kind::Least, [*b, *t, *s]),
        _ => {
            eprintln!("plainswap fnv|rr|random|ketama|least BACKENDS THREADS SECONDS [flips]");
            process::exit(2);
        }
    };
    let whole = members(backends);
    let less = members(backends.saturating_sub(1));
    let balancer = Balancer {
        kind,
        selector: ArcSwap::from_pointee(Selector::build(kind, &whole)),
        health: ArcSwap::from_pointee(HashMap::new()),
        loads: ArcSwap::from_pointee(HashMap::new()),
    };
    balancer.update(&whole);
    let over = AtomicBool::new(false);
    let start = Instant::now();
    let total: u64 = thread::scope(|scope| {
        scope.spawn(|| {
            for turn in 0.. {
                if start.elapsed() >= Duration::from_secs(seconds as u64) {
                    break;
                }
                thread::sleep(Duration::from_millis(10));
                balancer.update(if turn % 2 == 0 { &less } else { &whole });
                if let (true, 9, Some(first)) = (flips, turn % 10, whole.first()) {
                    balancer.flip(first);
                }
            }
            over.store(true, Ordering::SeqCst);
        });
        let workers: Vec<_> = (0..threads)
            .map(|worker| {
                let (balancer, over) = (&balancer, &over);
                scope.spawn(move || {
                    let (mut count, mut key) = (0u64, worker as u64);
                    STATE.with(|state| state.set(0x9e37_79b9_7f4a_7c15 ^ (worker as u64 + 1)));
                    while !over.load(Ordering::Relaxed) {
                        for _ in 0..1000 {
                            key = key.wrapping_mul(6364136223846793005).wrapping_add(1442695040888963407);
                            count += u64::from(balancer.select(&key.to_le_bytes(), 16).is_some());
                        }
                    }
                    count
                })
            })
            .collect();
        workers.into_iter().map(|worker| worker.join().unwrap_or(0)).sum()
    });
    println!("{}", (total as f64 / start.elapsed().as_secs_f64()) as u64);
}
