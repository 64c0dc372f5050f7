//! What the lines of a script ask for.

use crate::selection::{Address, Backend, Kind};

/// A backend and its mark; none where its address is refused.
pub type Listed = (Option<Backend>, Option<bool>);

/// A backend that is there, and its mark.
pub type Marked = (Backend, Option<bool>);

/// A line, as a request to the world. A backend is `None` where its address is refused.
pub enum Line<'a> {
    Registry { by_address: bool, healthy: bool },
    Gate,
    Group { registry: u64, gate: u64, kind: Kind, slots: usize },
    Update { group: u64, now: u128, listed: Vec<Listed> },
    AtSlot { group: u64, slot: u64, what: AtSlot },
    Enter { group: u64, slot: u64 },
    Ready { reader: u64, backend: Option<Backend> },
    Leave { reader: u64 },
    Select { group: u64, slot: u64, key: &'a [u8], limit: u64 },
    Verdict { registry: u64, cell: u64, ok: bool, threshold: u64 },
    SetEnable { group: u64, backend: Option<Backend>, enabled: bool },
    Load { group: u64, backend: Option<Backend>, load: u64 },
    Cancel { group: u64 },
    Targets { registry: u64 },
}

/// What a line does at a slot, with its moment.
pub enum AtSlot {
    Ask(u128),
    Build(u128),
    FailBuild(u128),
    Lost,
    Publish,
    Abandon,
    Destroy,
    Counts,
    Timing,
}

/// The words of a line that are not taken yet.
type Words<'a> = std::str::Split<'a, char>;

/// The request of a line, if it is one.
pub fn parse(line: &str) -> Option<Line<'_>> {
    let mut words = line.split(' ');
    let parsed = match words.next()? {
        "registry" => registry(&mut words),
        "gate" => Some(Line::Gate),
        "group" => group(&mut words),
        "update" => update(&mut words),
        "ask" => timed(&mut words, AtSlot::Ask),
        "build" => timed(&mut words, AtSlot::Build),
        "failbuild" => timed(&mut words, AtSlot::FailBuild),
        "lost" => at_slot(&mut words, AtSlot::Lost),
        "publish" => at_slot(&mut words, AtSlot::Publish),
        "abandon" => at_slot(&mut words, AtSlot::Abandon),
        "destroy" => at_slot(&mut words, AtSlot::Destroy),
        "counts" => at_slot(&mut words, AtSlot::Counts),
        "timing" => at_slot(&mut words, AtSlot::Timing),
        "enter" => slot(&mut words).map(|(group, slot)| Line::Enter { group, slot }),
        "ready" => numbered_backend(&mut words).map(|(reader, backend)| Line::Ready { reader, backend }),
        "leave" => number(&mut words).map(|reader| Line::Leave { reader }),
        "select" => select(&mut words),
        "verdict" => verdict(&mut words),
        "enable" => set_enable(&mut words, true),
        "disable" => set_enable(&mut words, false),
        "load" => load(&mut words),
        "cancel" => number(&mut words).map(|group| Line::Cancel { group }),
        "targets" => number(&mut words).map(|registry| Line::Targets { registry }),
        _ => None,
    };
    parsed.filter(|_| words.next().is_none())
}

fn registry<'a>(words: &mut Words<'a>) -> Option<Line<'a>> {
    let by_address = match words.next()? {
        "identity" => false,
        "address" => true,
        _ => return None,
    };
    let healthy = match words.next() {
        None => true,
        Some("unhealthy") => false,
        Some(_) => return None,
    };
    Some(Line::Registry { by_address, healthy })
}

fn group<'a>(words: &mut Words<'a>) -> Option<Line<'a>> {
    let registry = number(words)?;
    let gate = number(words)?;
    let kind = match words.next()? {
        "fnv" => Kind::Fnv,
        "rr" => Kind::RoundRobin,
        "ketama" => Kind::Ketama,
        "least" => Kind::Least,
        _ => return None,
    };
    let slots = number(words).filter(|slots| *slots <= 1024)? as usize;
    Some(Line::Group { registry, gate, kind, slots })
}

fn update<'a>(words: &mut Words<'a>) -> Option<Line<'a>> {
    let group = number(words)?;
    let now = moment(words)?;
    let listed = words.map(marked).collect::<Option<Vec<_>>>()?;
    Some(Line::Update { group, now, listed })
}

fn select<'a>(words: &mut Words<'a>) -> Option<Line<'a>> {
    let (group, slot) = slot(words)?;
    let key = words.next().filter(|key| !key.is_empty())?.as_bytes();
    let limit = number(words)?;
    Some(Line::Select { group, slot, key, limit })
}

fn slot(words: &mut Words<'_>) -> Option<(u64, u64)> {
    Some((number(words)?, number(words)?))
}

fn at_slot<'a>(words: &mut Words<'a>, what: AtSlot) -> Option<Line<'a>> {
    let (group, slot) = slot(words)?;
    Some(Line::AtSlot { group, slot, what })
}

fn timed<'a>(words: &mut Words<'a>, what: impl Fn(u128) -> AtSlot) -> Option<Line<'a>> {
    let (group, slot) = slot(words)?;
    Some(Line::AtSlot { group, slot, what: what(moment(words)?) })
}

fn verdict<'a>(words: &mut Words<'a>) -> Option<Line<'a>> {
    let (registry, cell) = slot(words)?;
    let ok = match words.next()? {
        "ok" => true,
        "fail" => false,
        _ => return None,
    };
    Some(Line::Verdict { registry, cell, ok, threshold: number(words)? })
}

fn numbered_backend(words: &mut Words<'_>) -> Option<(u64, Option<Backend>)> {
    Some((number(words)?, backend(words.next()?)?))
}

fn set_enable<'a>(words: &mut Words<'a>, enabled: bool) -> Option<Line<'a>> {
    let (group, backend) = numbered_backend(words)?;
    Some(Line::SetEnable { group, backend, enabled })
}

fn load<'a>(words: &mut Words<'a>) -> Option<Line<'a>> {
    let (group, backend) = numbered_backend(words)?;
    Some(Line::Load { group, backend, load: number(words)? })
}

/// A backend with the mark before it.
fn marked(word: &str) -> Option<Listed> {
    let (mark, word) = match word.as_bytes().first()? {
        b'!' => (Some(false), &word[1..]),
        b'+' => (Some(true), &word[1..]),
        _ => (None, word),
    };
    Some((backend(word)?, mark))
}

/// An address, `/` and a weight.
fn backend(word: &str) -> Option<Option<Backend>> {
    let (address, weight) = word.rsplit_once('/')?;
    let weight = spelled(weight)?.parse().ok()?;
    Some(Address::parse(address).map(|address| Backend { address, weight }))
}

fn number(words: &mut Words<'_>) -> Option<u64> {
    spelled(words.next()?)?.parse().ok()
}

fn moment(words: &mut Words<'_>) -> Option<u128> {
    spelled(words.next()?)?.parse().ok()
}

/// Decimal digits without a zero before others.
fn spelled(word: &str) -> Option<&str> {
    let digits = !word.is_empty() && word.bytes().all(|byte| byte.is_ascii_digit());
    (digits && (word == "0" || !word.starts_with('0'))).then_some(word)
}
