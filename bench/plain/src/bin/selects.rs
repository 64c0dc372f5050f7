//! The yardstick of crates/lb_cost, `selects`: the same runs, from the same lines, with the same answers.
use plainsim::selection::{Address, Backend, Kind, Loads, Selector};
use std::collections::BTreeSet;
use std::io::{self, BufRead};
use std::net::{IpAddr, Ipv4Addr, SocketAddr};
use std::process::ExitCode;

const LIMIT: u64 = 8;

/// What a line asks for.
struct Run<'a> {
    kind: &'a str,
    backends: u32,
    /// Of each backend; none where they are mixed.
    weight: Option<u64>,
    selections: u64,
}

fn backend_of(number: u32, weight: Option<u64>) -> Backend {
    let address = Address::Inet(SocketAddr::new(IpAddr::V4(Ipv4Addr::from(number)), 80));
    Backend { address, weight: weight.unwrap_or(u64::from(number % 10 + 1)) }
}

fn number_of(backend: &Backend) -> u64 {
    match backend.address {
        Address::Inet(SocketAddr::V4(inet)) => u64::from(u32::from(*inet.ip())),
        _ => 0,
    }
}

impl Run<'_> {
    fn of(line: &str) -> Option<Run<'_>> {
        let mut words = line.split(' ');
        let kind = words.next()?;
        let backends = words.next()?.parse().ok()?;
        let weight = words.next()?.parse().ok();
        let selections = words.next()?.parse().ok()?;
        Some(Run { kind, backends, weight, selections })
    }

    fn sum(&self) -> Option<u64> {
        let set: BTreeSet<Backend> = (0..self.backends).map(|number| backend_of(number, self.weight)).collect();
        let kind = match self.kind {
            "fnv" => Kind::Fnv,
            "rr" => Kind::RoundRobin,
            "ketama" => Kind::Ketama,
            "least" => Kind::Least,
            _ => return None,
        };
        let mut selector = Selector::build(kind, &set).ok()?;
        let mut loads = Loads::new();
        if let Kind::Least = kind {
            loads.extend(set.into_iter().map(|backend| {
                let load = (number_of(&backend) + 3) * 7919 % 1000;
                (backend, load)
            }));
        }
        let mut sum = 0u64;
        for number in 0..self.selections {
            if let Some(backend) = selector.select(&number.to_le_bytes(), LIMIT, &loads, |_| true) {
                // What is selected is the caller's own, as the library gives it.
                sum = sum.wrapping_add(number_of(&backend.clone()));
            }
        }
        Some(sum)
    }
}

fn main() -> ExitCode {
    for line in io::stdin().lock().lines().map_while(Result::ok) {
        let Some(sum) = Run::of(&line).and_then(|run| run.sum()) else { return ExitCode::from(1) };
        println!("{line} {sum}");
    }
    ExitCode::SUCCESS
}
