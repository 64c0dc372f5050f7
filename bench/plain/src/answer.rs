//! What the world answers, and why it refuses.

use crate::registry::Target;
use crate::selection::{Backend, Unbuildable};
use std::fmt;

pub enum Refusal {
    InvalidAddress,
    TooManyBackends,
    WeightTooLarge,
    TooManyPoints,
    GroupCancelled,
    NoSuch,
    StillRead(u64),
    NothingInFlight,
    NothingBuilt,
    NothingRetired,
    NoSuchReader,
}

impl From<Unbuildable> for Refusal {
    fn from(cause: Unbuildable) -> Refusal {
        match cause {
            Unbuildable::TooManyBackends => Refusal::TooManyBackends,
            Unbuildable::WeightTooLarge => Refusal::WeightTooLarge,
            Unbuildable::TooManyPoints => Refusal::TooManyPoints,
        }
    }
}

impl fmt::Display for Refusal {
    fn fmt(&self, out: &mut fmt::Formatter<'_>) -> fmt::Result {
        match self {
            Refusal::InvalidAddress => write!(out, "1 InvalidAddress"),
            Refusal::TooManyBackends => write!(out, "3 TooManyBackends"),
            Refusal::WeightTooLarge => write!(out, "4 WeightTooLarge"),
            Refusal::TooManyPoints => write!(out, "5 TooManyPoints"),
            Refusal::GroupCancelled => write!(out, "8 GroupCancelled"),
            Refusal::NoSuch => write!(out, "9 NoSuch"),
            Refusal::StillRead(readers) => write!(out, "11 StillRead {readers}"),
            Refusal::NothingInFlight => write!(out, "12 NothingInFlight"),
            Refusal::NothingBuilt => write!(out, "13 NothingBuilt"),
            Refusal::NothingRetired => write!(out, "14 NothingRetired"),
            Refusal::NoSuchReader => write!(out, "15 NoSuchReader"),
        }
    }
}

/// The numbers of a slot.
pub struct Counts {
    pub newest: u64,
    pub served: u64,
    pub flight: Option<u64>,
    pub waiting: bool,
    pub published: u64,
    pub coalesced: u64,
    pub superseded: u64,
    pub failed: u64,
}

pub enum Answer {
    Numbered(&'static str, u64),
    Word(&'static str),
    Wait(u128),
    Failed(u64, Refusal),
    Backend(Backend),
    Targets(Vec<Target>),
    Counts(Counts),
    Timing(u64, u128, u128),
}

impl fmt::Display for Answer {
    fn fmt(&self, out: &mut fmt::Formatter<'_>) -> fmt::Result {
        match self {
            Answer::Numbered(name, number) => write!(out, "{name} {number}"),
            Answer::Word(word) => out.write_str(word),
            Answer::Wait(due) => write!(out, "wait {due}"),
            Answer::Failed(generation, refusal) => write!(out, "failed {generation} {refusal}"),
            Answer::Backend(backend) => write!(out, "backend {backend}"),
            Answer::Targets(targets) => {
                write!(out, "targets {}", targets.len())?;
                targets.iter().try_for_each(|target| {
                    let health = if target.healthy { "ok" } else { "bad" };
                    write!(out, " {}={}:{health}", target.backend, target.cell)
                })
            }
            Answer::Counts(counts) => {
                write!(out, "counts newest {} served {} flight ", counts.newest, counts.served)?;
                match counts.flight {
                    Some(generation) => write!(out, "{generation}")?,
                    None => out.write_str("-")?,
                }
                let Counts { published, coalesced, superseded, failed, waiting, .. } = counts;
                write!(out, " waiting {} published {published} coalesced {coalesced}", u8::from(*waiting))?;
                write!(out, " superseded {superseded} failed {failed}")
            }
            Answer::Timing(generation, queue, build) => write!(out, "timing {generation} {queue} {build}"),
        }
    }
}
