//! Registries: the targets of all views, a cell of health for each key, and what a view shows.

use crate::answer::Refusal;
use crate::selection::{Address, Backend};
use std::cell::Cell;
use std::collections::{BTreeSet, HashMap, HashSet};
use std::rc::{Rc, Weak};

/// The health of a key. It is kept while its key is a target or a snapshot has it.
pub struct HealthCell {
    pub number: u64,
    pub healthy: Cell<bool>,
    against: Cell<u64>,
}

impl HealthCell {
    /// Takes a verdict, and answers whether the health flipped.
    fn observe(&self, ok: bool, threshold: u64) -> bool {
        if ok == self.healthy.get() {
            self.against.set(0);
            return false;
        }
        self.against.set(self.against.get() + 1);
        let flips = self.against.get() >= threshold.max(1);
        if flips {
            self.healthy.set(ok);
            self.against.set(0);
        }
        flips
    }
}

#[derive(PartialEq, Eq, Hash, Clone)]
enum Key {
    Address(Address),
    Identity(Backend),
}

#[derive(Default)]
struct View {
    removed: bool,
    marked: bool,
    members: Rc<BTreeSet<Backend>>,
}

/// The cells of the members of one generation.
pub type Cells = HashMap<Backend, Rc<HealthCell>>;

pub struct Target {
    pub backend: Backend,
    pub cell: u64,
    pub healthy: bool,
}

pub struct Registry {
    by_address: bool,
    healthy: bool,
    views: Vec<View>,
    targets: HashMap<Key, Rc<HealthCell>>,
    cells: HashMap<u64, Weak<HealthCell>>,
    next: u64,
}

impl Registry {
    pub fn new(by_address: bool, healthy: bool) -> Registry {
        Registry { by_address, healthy, views: Vec::new(), targets: HashMap::new(), cells: HashMap::new(), next: 0 }
    }

    fn key(&self, backend: &Backend) -> Key {
        if self.by_address {
            Key::Address(backend.address.clone())
        } else {
            Key::Identity(backend.clone())
        }
    }

    /// The first backend of each key by view, in their order.
    fn listed(&self) -> Vec<(Backend, usize, Key)> {
        let mut keys: HashMap<Key, (Backend, usize)> = HashMap::new();
        for (id, view) in self.views.iter().enumerate().filter(|(_, view)| !view.removed) {
            for backend in view.members.iter() {
                keys.entry(self.key(backend)).or_insert_with(|| (backend.clone(), id));
            }
        }
        let mut listed: Vec<_> = keys.into_iter().map(|(key, (backend, id))| (backend, id, key)).collect();
        listed.sort_unstable_by(|a, b| (&a.0, a.1).cmp(&(&b.0, b.1)));
        listed
    }

    /// A key that stays a target keeps its cell, another one gets the next.
    fn refresh(&mut self) {
        let mut targets = HashMap::new();
        for (_, _, key) in self.listed() {
            let cell = match self.targets.remove(&key) {
                Some(cell) => cell,
                None => self.start(),
            };
            targets.insert(key, cell);
        }
        self.targets = targets;
    }

    fn start(&mut self) -> Rc<HealthCell> {
        let number = self.next;
        self.next += 1;
        let cell = Rc::new(HealthCell { number, healthy: Cell::new(self.healthy), against: Cell::new(0) });
        self.cells.insert(number, Rc::downgrade(&cell));
        cell
    }

    fn apply(&mut self) {
        let mut applied = false;
        for view in self.views.iter_mut().filter(|view| view.marked && !view.removed) {
            view.removed = true;
            applied = true;
        }
        if applied {
            self.refresh();
        }
    }

    pub fn register(&mut self) -> usize {
        self.apply();
        self.views.push(View::default());
        self.views.len() - 1
    }

    pub fn remove(&mut self, view: usize) {
        self.views[view].marked = true;
    }

    /// Shows another membership of a view; the cells of its members.
    pub fn show(&mut self, view: usize, members: &Rc<BTreeSet<Backend>>) -> Cells {
        self.apply();
        self.views[view].members = members.clone();
        self.refresh();
        members.iter().map(|backend| (backend.clone(), self.targets[&self.key(backend)].clone())).collect()
    }

    pub fn observe(&mut self, cell: u64, ok: bool, threshold: u64) -> Result<bool, Refusal> {
        let cell = self.cells.get(&cell).and_then(Weak::upgrade).ok_or(Refusal::NoSuch)?;
        Ok(cell.observe(ok, threshold))
    }

    pub fn targets(&mut self) -> Vec<Target> {
        self.apply();
        let told = |(backend, _, key): (Backend, usize, Key)| {
            let cell = &self.targets[&key];
            Target { backend, cell: cell.number, healthy: cell.healthy.get() }
        };
        self.listed().into_iter().map(told).collect()
    }
}

/// A membership as a group lists it: its generation, when it came, and the cell of each member.
pub struct Snapshot {
    pub generation: u64,
    pub at: u128,
    pub members: Rc<BTreeSet<Backend>>,
    pub cells: Cells,
}

/// The flags of a group's backends. One is kept while a live snapshot lists its backend.
#[derive(Default)]
pub struct Flags {
    disabled: HashSet<Backend>,
    live: Vec<Weak<Snapshot>>,
}

impl Flags {
    pub fn show(&mut self, snapshot: &Rc<Snapshot>) {
        self.live.push(Rc::downgrade(snapshot));
    }

    /// Sets a flag, where a live snapshot lists the backend.
    pub fn set(&mut self, backend: &Backend, enabled: bool) {
        if enabled {
            self.disabled.remove(backend);
        } else if is_listed(&self.live, backend) {
            self.disabled.insert(backend.clone());
        }
    }

    /// Forgets the flags of backends that no live snapshot lists any more.
    pub fn prune(&mut self) {
        self.live.retain(|snapshot| snapshot.strong_count() > 0);
        let live = &self.live;
        self.disabled.retain(|backend| is_listed(live, backend));
    }

    pub fn is_ready(&self, snapshot: &Snapshot, backend: &Backend) -> bool {
        snapshot.cells.get(backend).is_some_and(|cell| cell.healthy.get()) && !self.disabled.contains(backend)
    }
}

fn is_listed(live: &[Weak<Snapshot>], backend: &Backend) -> bool {
    live.iter().filter_map(Weak::upgrade).any(|snapshot| snapshot.cells.contains_key(backend))
}
