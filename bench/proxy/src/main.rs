//! What bench/proxy/run takes where nginx, haproxy or wrk isn't there: a backend, a relay and a load, each over epoll.
mod backend;
mod load;
mod poll;
mod relay;
mod slots;

use std::net::TcpListener;
use std::{env, io};

const USAGE: &str = "plainproxy backend THREADS ADDRESS
plainproxy relay THREADS ADDRESS BACKEND..
plainproxy load THREADS ADDRESS CONNECTIONS SECONDS SIZE kept|new
A load prints requests a second, the median and the 99th percentile in microseconds, and how many failed.";

fn main() -> io::Result<()> {
    let words: Vec<String> = env::args().skip(1).collect();
    let words: Vec<&str> = words.iter().map(String::as_str).collect();
    match words.as_slice() {
        ["backend", threads, address] => backend::serve(count(threads), TcpListener::bind(address)?),
        ["relay", threads, address, backends @ ..] if !backends.is_empty() => {
            let backends: Vec<_> = backends.iter().map(|text| text.parse().expect("an address")).collect();
            relay::serve(count(threads), TcpListener::bind(address)?, &backends)
        }
        ["load", threads, address, connections, seconds, size, kept @ ("kept" | "new")] => {
            load::run(load::Plan {
                address: address.parse().expect("an address"),
                threads: count(threads),
                connections: count(connections),
                seconds: seconds.parse().expect("seconds"),
                size: count(size),
                keeps: *kept == "kept",
            });
            Ok(())
        }
        _ => {
            eprintln!("{USAGE}");
            std::process::exit(2)
        }
    }
}

fn count(word: &str) -> usize {
    word.parse().expect("a number")
}
