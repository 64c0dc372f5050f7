//! Registries, gates, groups and readers, and what each line does to them.

use crate::answer::{Answer, Refusal};
use crate::group::Group;
use crate::registry::Registry;
use crate::script::{AtSlot, Line, Listed};
use crate::selection::{Backend, Kind};

struct Reader {
    group: usize,
    slot: u64,
    generation: u64,
}

#[derive(Default)]
pub struct World {
    registries: Vec<Registry>,
    // whether a gate's permit is out
    gates: Vec<bool>,
    groups: Vec<Group>,
    readers: Vec<Option<Reader>>,
}

fn there(backend: Option<Backend>) -> Result<Backend, Refusal> {
    backend.ok_or(Refusal::InvalidAddress)
}

impl World {
    pub fn take(&mut self, line: Line<'_>) -> Result<Answer, Refusal> {
        match line {
            Line::Registry { by_address, healthy } => {
                self.registries.push(Registry::new(by_address, healthy));
                Ok(Answer::Numbered("registry", self.registries.len() as u64 - 1))
            }
            Line::Gate => {
                self.gates.push(false);
                Ok(Answer::Numbered("gate", self.gates.len() as u64 - 1))
            }
            Line::Group { registry, gate, kind, slots } => self.make_group(registry, gate, kind, slots),
            Line::Update { group, now, listed } => self.update(group, listed, now),
            Line::AtSlot { group, slot, what } => self.at_slot(group, slot, what),
            Line::Enter { group, slot } => self.enter(group, slot),
            Line::Ready { reader, backend } => {
                let backend = there(backend)?;
                let Reader { group, slot, generation } = *self.reader(reader)?.as_ref().ok_or(Refusal::NoSuchReader)?;
                self.groups[group].ready(slot, generation, &backend)
            }
            Line::Leave { reader } => {
                let Reader { group, slot, generation } = self.reader(reader)?.take().ok_or(Refusal::NoSuchReader)?;
                self.groups[group].leave(slot, generation)
            }
            Line::Select { group, slot, key, limit } => {
                let selected = self.group(group)?.select(slot, key, limit);
                Ok(selected.map_or(Answer::Word("none"), Answer::Backend))
            }
            Line::Verdict { registry, cell, ok, threshold } => {
                let flipped = self.registry(registry)?.observe(cell, ok, threshold)?;
                Ok(Answer::Word(if flipped { "flipped" } else { "kept" }))
            }
            Line::SetEnable { group, backend, enabled } => {
                let backend = there(backend)?;
                self.group(group)?.set_enable(&backend, enabled);
                Ok(Answer::Word("ok"))
            }
            Line::Load { group, backend, load } => {
                let backend = there(backend)?;
                self.group(group)?.set_load(backend, load);
                Ok(Answer::Word("ok"))
            }
            Line::Cancel { group } => {
                let group = self.groups.get_mut(group as usize).ok_or(Refusal::NoSuch)?;
                group.cancel(&mut self.registries[group.registry]);
                Ok(Answer::Word("cancelled"))
            }
            Line::Targets { registry } => Ok(Answer::Targets(self.registry(registry)?.targets())),
        }
    }

    fn registry(&mut self, registry: u64) -> Result<&mut Registry, Refusal> {
        self.registries.get_mut(registry as usize).ok_or(Refusal::NoSuch)
    }

    fn group(&mut self, group: u64) -> Result<&mut Group, Refusal> {
        self.groups.get_mut(group as usize).ok_or(Refusal::NoSuch)
    }

    fn reader(&mut self, reader: u64) -> Result<&mut Option<Reader>, Refusal> {
        self.readers.get_mut(reader as usize).ok_or(Refusal::NoSuchReader)
    }

    fn make_group(&mut self, registry: u64, gate: u64, kind: Kind, slots: usize) -> Result<Answer, Refusal> {
        if gate >= self.gates.len() as u64 {
            return Err(Refusal::NoSuch);
        }
        let group = Group::new((registry as usize, gate as usize), self.registry(registry)?, kind, slots)?;
        self.groups.push(group);
        Ok(Answer::Numbered("group", self.groups.len() as u64 - 1))
    }

    fn update(&mut self, group: u64, listed: Vec<Listed>, now: u128) -> Result<Answer, Refusal> {
        let marked = listed.into_iter().map(|(backend, mark)| Ok((there(backend)?, mark)));
        let marked = marked.collect::<Result<_, Refusal>>()?;
        let group = self.groups.get_mut(group as usize).ok_or(Refusal::NoSuch)?;
        group.update(&mut self.registries[group.registry], marked, now)
    }

    fn at_slot(&mut self, group: u64, slot: u64, what: AtSlot) -> Result<Answer, Refusal> {
        let group = self.groups.get_mut(group as usize).ok_or(Refusal::NoSuch)?;
        let is_out = &mut self.gates[group.gate];
        match what {
            AtSlot::Ask(now) => group.ask(slot, is_out, now),
            AtSlot::Build(now) => group.build(slot, is_out, now),
            AtSlot::FailBuild(now) => group.fail(slot, is_out, now),
            AtSlot::Lost => group.lose(slot),
            AtSlot::Publish => group.publish(slot),
            AtSlot::Abandon => group.abandon(slot),
            AtSlot::Destroy => group.destroy(slot, is_out),
            AtSlot::Counts => group.counts(slot),
            AtSlot::Timing => group.timing(slot),
        }
    }

    fn enter(&mut self, group: u64, slot: u64) -> Result<Answer, Refusal> {
        let generation = self.group(group)?.enter(slot)?;
        self.readers.push(Some(Reader { group: group as usize, slot, generation }));
        Ok(Answer::Numbered("reader", self.readers.len() as u64 - 1))
    }
}
