//! Groups of slots: which generation each serves, what is in flight, what is retired, and what is counted.

use crate::answer::{Answer, Counts, Refusal};
use crate::registry::{Flags, Registry, Snapshot};
use crate::script::Marked;
use crate::selection::{Backend, Kind, Loads, Selector};
use std::collections::BTreeSet;
use std::mem;
use std::rc::Rc;

const MILLISECOND: u128 = 1_000_000;

/// A selector that a slot serves or served, with the readers in it.
struct Serving {
    snapshot: Rc<Snapshot>,
    selector: Selector,
    readers: u64,
}

struct Flight {
    snapshot: Rc<Snapshot>,
    asked: u128,
    /// Whether its worker was lost, so that it will not be served.
    lost: bool,
    built: Option<(Selector, u128)>,
}

#[derive(Default)]
struct Failures {
    generation: u64,
    count: u32,
    last: u128,
}

impl Failures {
    /// When the next build of the generation is due.
    fn due(&self, generation: u64) -> u128 {
        if self.count == 0 || self.generation != generation {
            return 0;
        }
        let delay = 10u128.checked_shl(self.count - 1).filter(|_| self.count < 64).map_or(1000, |delay| delay.min(1000));
        self.last.saturating_add(delay * MILLISECOND)
    }

    fn add(&mut self, generation: u64, now: u128) {
        if self.generation != generation {
            *self = Failures { generation, ..Failures::default() };
        }
        self.count = self.count.saturating_add(1);
        self.last = now;
    }
}

struct Slot {
    served: Serving,
    flight: Option<Flight>,
    retired: Option<Serving>,
    failures: Failures,
    published: u64,
    coalesced: u64,
    superseded: u64,
    failed: u64,
    timing: Option<(u64, u128, u128)>,
}

impl Slot {
    fn new(kind: Kind, snapshot: &Rc<Snapshot>) -> Result<Slot, Refusal> {
        let selector = Selector::build(kind, &snapshot.members)?;
        Ok(Slot {
            served: Serving { snapshot: snapshot.clone(), selector, readers: 0 },
            flight: None,
            retired: None,
            failures: Failures::default(),
            published: 0,
            coalesced: 0,
            superseded: 0,
            failed: 0,
            timing: None,
        })
    }

    fn served(&self) -> u64 {
        self.served.snapshot.generation
    }

    fn flight(&self) -> Option<&Flight> {
        self.flight.as_ref().filter(|flight| !flight.lost)
    }

    fn waits(&self, newest: u64) -> bool {
        self.served().max(self.flight().map_or(0, |flight| flight.snapshot.generation)) < newest
    }

    /// Ends what is in flight, where `fits` says so. A flight that isn't lost is superseded where a newer generation came.
    fn end(&mut self, newest: u64, fits: impl Fn(&Flight) -> bool) -> Option<Flight> {
        let flight = self.flight.take_if(|flight| fits(flight))?;
        if !flight.lost && flight.snapshot.generation < newest {
            self.superseded += 1;
        }
        Some(flight)
    }
}

pub struct Group {
    pub registry: usize,
    pub gate: usize,
    view: usize,
    kind: Kind,
    cancelled: bool,
    newest: Rc<Snapshot>,
    flags: Flags,
    loads: Loads,
    slots: Vec<Slot>,
}

impl Group {
    pub fn new(at: (usize, usize), registry: &mut Registry, kind: Kind, slots: usize) -> Result<Group, Refusal> {
        let newest = Rc::new(Snapshot { generation: 0, at: 0, members: Rc::default(), cells: Default::default() });
        let slots = (0..slots).map(|_| Slot::new(kind, &newest)).collect::<Result<_, _>>()?;
        Ok(Group {
            registry: at.0,
            gate: at.1,
            view: registry.register(),
            kind,
            cancelled: false,
            newest,
            flags: Flags::default(),
            loads: Loads::new(),
            slots,
        })
    }

    fn slot(&mut self, slot: u64) -> Result<&mut Slot, Refusal> {
        self.slots.get_mut(slot as usize).ok_or(Refusal::NoSuch)
    }

    pub fn update(&mut self, registry: &mut Registry, marked: Vec<Marked>, now: u128) -> Result<Answer, Refusal> {
        if self.cancelled {
            return Err(Refusal::GroupCancelled);
        }
        let mut members = BTreeSet::new();
        for (backend, _) in &marked {
            members.insert(backend.clone());
        }
        let changed = members != *self.newest.members;
        if changed {
            let newest = self.newest.generation;
            for slot in &mut self.slots {
                slot.coalesced += u64::from(slot.waits(newest));
            }
            let members = Rc::new(members);
            let cells = registry.show(self.view, &members);
            self.newest = Rc::new(Snapshot { generation: newest + 1, at: now, members, cells });
            self.flags.show(&self.newest);
            self.flags.prune();
        }
        for (backend, mark) in &marked {
            if let Some(enabled) = mark {
                self.flags.set(backend, *enabled);
            }
        }
        Ok(Answer::Numbered(if changed { "generation" } else { "same" }, self.newest.generation))
    }

    pub fn ask(&mut self, slot: u64, is_out: &mut bool, now: u128) -> Result<Answer, Refusal> {
        let (cancelled, newest) = (self.cancelled, self.newest.clone());
        let slot = self.slot(slot)?;
        if cancelled {
            return Ok(Answer::Word("cancelled"));
        }
        if slot.flight().is_some() {
            return Ok(Answer::Word("building"));
        }
        if !slot.waits(newest.generation) {
            return Ok(Answer::Word("idle"));
        }
        let due = slot.failures.due(newest.generation);
        if now < due {
            return Ok(Answer::Wait(due));
        }
        if slot.flight.is_some() || slot.retired.is_some() || *is_out {
            return Ok(Answer::Word("busy"));
        }
        *is_out = true;
        let generation = newest.generation;
        slot.flight = Some(Flight { snapshot: newest, asked: now, lost: false, built: None });
        Ok(Answer::Numbered("build", generation))
    }

    pub fn build(&mut self, slot: u64, is_out: &mut bool, now: u128) -> Result<Answer, Refusal> {
        let kind = self.kind;
        let flight = self.slot(slot)?.flight.as_mut().filter(|flight| flight.built.is_none());
        let flight = flight.ok_or(Refusal::NothingInFlight)?;
        let generation = flight.snapshot.generation;
        match Selector::build(kind, &flight.snapshot.members) {
            Ok(selector) => {
                flight.built = Some((selector, now));
                Ok(Answer::Numbered("built", generation))
            }
            Err(cause) => {
                self.fail(slot, is_out, now)?;
                Ok(Answer::Failed(generation, cause.into()))
            }
        }
    }

    pub fn fail(&mut self, slot: u64, is_out: &mut bool, now: u128) -> Result<Answer, Refusal> {
        let newest = self.newest.generation;
        let slot = self.slot(slot)?;
        let flight = slot.end(newest, |flight| flight.built.is_none()).ok_or(Refusal::NothingInFlight)?;
        let generation = flight.snapshot.generation;
        slot.failed = slot.failed.saturating_add(1);
        slot.failures.add(generation, now);
        *is_out = false;
        drop(flight);
        self.flags.prune();
        Ok(Answer::Numbered("failed", generation))
    }

    pub fn lose(&mut self, slot: u64) -> Result<Answer, Refusal> {
        let newest = self.newest.generation;
        let slot = self.slot(slot)?;
        let mut flight = slot.end(newest, |flight| !flight.lost).ok_or(Refusal::NothingInFlight)?;
        flight.lost = true;
        let generation = flight.snapshot.generation;
        slot.flight = Some(flight);
        Ok(Answer::Numbered("lost", generation))
    }

    pub fn publish(&mut self, slot: u64) -> Result<Answer, Refusal> {
        let cancelled = self.cancelled;
        let at = self.slot(slot)?;
        if cancelled || at.flight.as_ref().is_some_and(|flight| flight.lost) {
            return self.abandon(slot);
        }
        let Some(Flight { snapshot, asked, built: Some((selector, ended)), .. }) =
            at.flight.take_if(|flight| flight.built.is_some())
        else {
            return Err(Refusal::NothingBuilt);
        };
        let generation = snapshot.generation;
        at.timing = Some((generation, asked.saturating_sub(snapshot.at), ended.saturating_sub(asked)));
        at.published += 1;
        at.retired = Some(mem::replace(&mut at.served, Serving { snapshot, selector, readers: 0 }));
        Ok(Answer::Numbered("published", generation))
    }

    pub fn abandon(&mut self, slot: u64) -> Result<Answer, Refusal> {
        let newest = self.newest.generation;
        let slot = self.slot(slot)?;
        let Some(Flight { snapshot, built: Some((selector, _)), .. }) =
            slot.end(newest, |flight| flight.built.is_some())
        else {
            return Err(Refusal::NothingBuilt);
        };
        let generation = snapshot.generation;
        slot.retired = Some(Serving { snapshot, selector, readers: 0 });
        Ok(Answer::Numbered("abandoned", generation))
    }

    /// Enters what the slot serves; its generation.
    pub fn enter(&mut self, slot: u64) -> Result<u64, Refusal> {
        let served = &mut self.slot(slot)?.served;
        served.readers += 1;
        Ok(served.snapshot.generation)
    }

    /// What a slot still has of a generation.
    fn entered(&mut self, slot: u64, generation: u64) -> Result<&mut Serving, Refusal> {
        let slot = self.slot(slot)?;
        match &mut slot.retired {
            Some(retired) if retired.snapshot.generation == generation && slot.served.snapshot.generation != generation => {
                Ok(retired)
            }
            _ => Ok(&mut slot.served),
        }
    }

    pub fn leave(&mut self, slot: u64, generation: u64) -> Result<Answer, Refusal> {
        self.entered(slot, generation)?.readers -= 1;
        Ok(Answer::Word("left"))
    }

    pub fn ready(&mut self, slot: u64, generation: u64, backend: &Backend) -> Result<Answer, Refusal> {
        let snapshot = self.entered(slot, generation)?.snapshot.clone();
        Ok(Answer::Word(if self.flags.is_ready(&snapshot, backend) { "yes" } else { "no" }))
    }

    pub fn destroy(&mut self, slot: u64, is_out: &mut bool) -> Result<Answer, Refusal> {
        let slot = self.slot(slot)?;
        match &slot.retired {
            None => return Err(Refusal::NothingRetired),
            Some(retired) if retired.readers > 0 => return Err(Refusal::StillRead(retired.readers)),
            Some(_) => slot.retired = None,
        }
        *is_out = false;
        self.flags.prune();
        Ok(Answer::Word("destroyed"))
    }

    pub fn select(&mut self, slot: u64, key: &[u8], limit: u64) -> Option<Backend> {
        let Serving { snapshot, selector, .. } = &mut self.slots.get_mut(slot as usize)?.served;
        let flags = &self.flags;
        selector.select(key, limit, &self.loads, |backend| flags.is_ready(snapshot, backend)).cloned()
    }

    pub fn set_enable(&mut self, backend: &Backend, enabled: bool) {
        self.flags.set(backend, enabled);
    }

    pub fn set_load(&mut self, backend: Backend, load: u64) {
        self.loads.insert(backend, load);
    }

    pub fn cancel(&mut self, registry: &mut Registry) {
        self.cancelled = true;
        registry.remove(self.view);
    }

    pub fn counts(&mut self, slot: u64) -> Result<Answer, Refusal> {
        let newest = self.newest.generation;
        let slot = self.slot(slot)?;
        Ok(Answer::Counts(Counts {
            newest,
            served: slot.served(),
            flight: slot.flight().map(|flight| flight.snapshot.generation),
            waiting: slot.waits(newest),
            published: slot.published,
            coalesced: slot.coalesced,
            superseded: slot.superseded,
            failed: slot.failed,
        }))
    }

    pub fn timing(&mut self, slot: u64) -> Result<Answer, Refusal> {
        let timing = self.slot(slot)?.timing;
        Ok(timing.map_or(Answer::Word("none"), |(generation, queue, build)| Answer::Timing(generation, queue, build)))
    }
}
