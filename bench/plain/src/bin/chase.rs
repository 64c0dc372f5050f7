//! What one read costs where the place of each is told by the one before: nanoseconds a read, by how much memory is read from.
//! No search in a table of that size can take less than its last read.
use std::hint::black_box;
use std::time::Instant;

const READS: u32 = 2_000_000;
const LINE: usize = 64;

/// A cache's line, with the number of the next one.
#[repr(align(64))]
struct Line(usize);

/// Lines in one round through all of them, in random order (Sattolo's).
fn round(lines: usize) -> Vec<Line> {
    let mut order: Vec<usize> = (0..lines).collect();
    let mut state = 88_172_645_463_325_252u64;
    for last in (1..lines).rev() {
        state ^= state << 13;
        state ^= state >> 7;
        state ^= state << 17;
        order.swap(last, (state % last as u64) as usize);
    }
    order.into_iter().map(Line).collect()
}

fn nanoseconds(lines: &[Line]) -> f64 {
    let start = Instant::now();
    let mut at = 0;
    for _ in 0..READS {
        at = lines[at].0;
    }
    black_box(at);
    start.elapsed().as_secs_f64() * 1e9 / f64::from(READS)
}

fn main() {
    for kib in [16, 512, 1024, 2048, 6400, 12_800, 70_400] {
        let lines = round(kib * 1024 / LINE);
        let best = (0..3).map(|_| nanoseconds(&lines)).fold(f64::INFINITY, f64::min);
        println!("{kib} KiB: {best:.1} ns");
    }
}
