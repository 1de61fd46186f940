//! Counts the consistent prefixes of an execution without walking them: those that lead to the same state go on alike, so each
//! state is reached once, with the number of prefixes that lead to it.
//!
//! A state is the set of operations that stand, and what their order still decides: which store each load would see, and which
//! of two overlapping stores came first. Written from the sentences of documents 01 and 02, apart from `rules` and `fast`.

use super::record::{Attribute, Execution, Kind, Operation, Role};
use std::collections::HashMap;

/// How many consistent prefixes there are, the empty one left out, and how many are full. With no operation the empty one is full.
#[derive(Clone, Copy, PartialEq, Eq, Debug)]
pub struct Counted {
    pub prefixes: u128,
    pub full: u128,
}

/// Counts; nothing if more than `most` states have the same number of operations.
pub fn count(execution: &Execution, most: usize) -> Option<Counted> {
    let model = Model::of(execution);
    let mut counted = Counted {
        prefixes: 0,
        full: 0,
    };
    let mut states = HashMap::from([(model.empty(), 1)]);
    for _ in 0..execution.operation_count() {
        let mut next: HashMap<State, u128> = HashMap::new();
        for (state, ways) in &states {
            for operation in 0..execution.operation_count() {
                if let Some(longer) = model.with(state, operation) {
                    *next.entry(longer).or_insert(0) += ways;
                }
            }
        }
        if next.len() > most {
            return None;
        }
        counted.prefixes += next.values().sum::<u128>();
        states = next;
    }
    counted.full = states.values().sum();
    Some(counted)
}

/// No store.
const NONE: u8 = u8::MAX;

#[derive(Clone, PartialEq, Eq, Hash)]
struct State {
    /// The operations that stand, one bit each.
    standing: u128,
    /// By watched byte: the store with the latest LV of its own processor, and with the latest RV there.
    written: Vec<u8>,
    visible: Vec<u8>,
    /// By pair of overlapping stores: which of them some processor sees first, or neither yet.
    first: Vec<u8>,
}

impl State {
    fn stands(&self, operation: usize) -> bool {
        self.standing >> operation & 1 == 1
    }
}

/// What is fixed by the execution.
struct Model<'a> {
    e: &'a Execution,
    /// Each byte that a processor loads.
    watched: Vec<(usize, usize)>,
    /// Overlapping stores that coherence is about.
    coherent: Vec<(usize, usize)>,
}

impl<'a> Model<'a> {
    fn of(e: &'a Execution) -> Model<'a> {
        let mut watched: Vec<(usize, usize)> = e
            .loads()
            .flat_map(|r| {
                let load = &e.instructions[r];
                load.addresses().map(|b| (load.processor, b))
            })
            .collect();
        watched.sort_unstable();
        watched.dedup();
        let pairs = e.stores().flat_map(|w| e.stores().map(move |v| (w, v)));
        let coherent = pairs
            .filter(|&(w, v)| w < v && e.overlap(w, v))
            .filter(|&(w, _)| e.attribute(w) != Attribute::WriteCoalescing);
        Model {
            e,
            watched,
            coherent: coherent.collect(),
        }
    }

    fn empty(&self) -> State {
        State {
            standing: 0,
            written: vec![NONE; self.watched.len()],
            visible: vec![NONE; self.watched.len()],
            first: vec![NONE; self.coherent.len()],
        }
    }

    /// The state with this operation at the end, if it does not stand yet and no rule is broken then.
    fn with(&self, state: &State, operation: usize) -> Option<State> {
        if state.stands(operation) || !self.may_follow(state, operation) {
            return None;
        }
        let mut longer = state.clone();
        longer.standing |= 1 << operation;
        let Operation { instruction, role } = self.e.operations[operation];
        let access = &self.e.instructions[instruction];
        for (at, &(p, b)) in self.watched.iter().enumerate() {
            if access.covers(b) && role == Role::Local && p == access.processor {
                longer.written[at] = instruction as u8;
            }
            if access.covers(b) && role == Role::Remote(p) {
                longer.visible[at] = instruction as u8;
            }
        }
        if matches!(role, Role::Remote(_)) {
            for (at, &(w, v)) in self.coherent.iter().enumerate() {
                if longer.first[at] == NONE && (w == instruction || v == instruction) {
                    longer.first[at] = instruction as u8;
                }
            }
        }
        Some(longer)
    }

    fn may_follow(&self, state: &State, operation: usize) -> bool {
        let Operation { instruction, role } = self.e.operations[operation];
        let awaited = |other: usize| !state.stands(other) && self.requires(other, operation);
        if (0..self.e.operation_count()).any(awaited) || self.parts_a_release(state, operation) {
            return false;
        }
        match role {
            Role::Read => self.sees_its_value(state, instruction),
            Role::Remote(q) => {
                self.keeps_coherence(state, instruction, q)
                    && !self.parts_a_semaphore(state, instruction, q)
            }
            Role::Local | Role::Fence => true,
        }
    }

    /// Whether rules 1 to 9, 13 and 15 demand a before b. Rule 9's 'if' holds wherever rule 7 does.
    fn requires(&self, a: usize, b: usize) -> bool {
        let e = self.e;
        let (first, second) = (a, b);
        let (a, b) = (e.operations[a], e.operations[b]);
        let (i, j) = (a.instruction, b.instruction);
        let own = e.instructions[i].processor;
        if i == j {
            return match (a.role, b.role) {
                (Role::Read, Role::Local) => true,
                (Role::Local, Role::Remote(q)) => q == own,
                (Role::Remote(p), Role::Remote(q)) => p == own && q != own,
                _ => false,
            };
        }
        if i > j || !e.same_program(i, j) {
            return false;
        }
        let kinds = [i, j].map(|k| e.instructions[k].kind);
        let acquire = kinds[0].acquires() && a.role == Role::Read;
        let release = kinds[1].releases() && (a.role == Role::Read || a.role == b.role);
        let fence = kinds.contains(&Kind::Fence);
        if acquire || release || fence {
            return true;
        }
        let overlap = e.overlap(i, j);
        let flow = e.pairs.contains(&(i as u8, j as u8));
        let attributes = [i, j].map(|k| e.attribute(k));
        // The attribute of a UC line has its domain in it.
        let one_domain = attributes[0].is_uncacheable() && attributes[0] == attributes[1];
        // R of a semaphore and LV of a store that is none are the first of their instruction.
        let both_first = first == e.operations_of(i).start && second == e.operations_of(j).start;
        if both_first && (flow || one_domain) {
            return true;
        }
        match (a.role, b.role) {
            (Role::Local, Role::Read | Role::Local) | (Role::Read, Role::Local) => overlap,
            (Role::Remote(p), Role::Remote(q)) if p == own && q == own => {
                overlap && attributes[0] != Attribute::WriteCoalescing
            }
            _ => false,
        }
    }

    /// Rule 12: some st.rel to WB or sem.rel has part of its RV standing, and this is none of the others.
    fn parts_a_release(&self, state: &State, operation: usize) -> bool {
        let to_write_back = |&w: &usize| {
            self.e.instructions[w].kind.releases() && self.e.attribute(w) == Attribute::WriteBack
        };
        let parted = |w: usize| {
            let remote = || (0..self.e.processors).map(|q| self.e.remote(w, q));
            remote().any(|rv| state.stands(rv))
                && !remote().all(|rv| state.stands(rv))
                && self.e.operations[operation].instruction != w
        };
        self.e.stores().filter(to_write_back).any(parted)
    }

    /// Rule 16 for a store whose RV_q comes next: an overlapping semaphore by q has its R standing, and not its RV_q.
    fn parts_a_semaphore(&self, state: &State, store: usize, q: usize) -> bool {
        let e = self.e;
        let mut others = e.semaphores().filter(|&other| other != store);
        others.any(|other| {
            e.instructions[other].processor == q
                && e.overlap(other, store)
                && state.stands(e.read(other))
                && !state.stands(e.remote(other, q))
        })
    }

    /// Rule 10: every processor sees first the store that any has seen first.
    fn keeps_coherence(&self, state: &State, store: usize, q: usize) -> bool {
        let pairs = self.coherent.iter().zip(&state.first);
        pairs
            .filter(|((w, v), _)| *w == store || *v == store)
            .all(|(&(w, v), &first)| {
                let other = w + v - store;
                let other_seen = state.stands(self.e.remote(other, q));
                match usize::from(first) {
                    first if first == store => !other_seen,
                    first if first == other => other_seen,
                    _ => true,
                }
            })
    }

    /// Rules 11 and 14 for a load whose R comes next.
    fn sees_its_value(&self, state: &State, load: usize) -> bool {
        let e = self.e;
        let read = &e.instructions[load];
        let p = read.processor;
        let waiting = |&w: &usize| {
            e.instructions[w].processor == p
                && state.stands(e.local(w))
                && !state.stands(e.remote(w, p))
        };
        let bypass: Vec<usize> = e.stores().filter(waiting).collect();
        let refused = |&&w: &&usize| e.attribute(w).is_uncacheable() && e.overlap(w, load);
        if bypass.iter().any(|w| refused(&w)) {
            return false;
        }
        read.addresses().all(|b| {
            let at = self.watched.iter().position(|&watched| watched == (p, b));
            let at = at.expect("each byte of a load is watched");
            let local = bypass.iter().any(|&w| e.instructions[w].covers(b));
            let source = match local {
                true => state.written[at],
                false => state.visible[at],
            };
            let seen = match source {
                NONE => e.initial(b),
                store => e.instructions[usize::from(store)].byte_written(b),
            };
            seen == read.byte_seen(b)
        })
    }
}
