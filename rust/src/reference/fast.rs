//! The search done incrementally: a candidate is tested by what one more operation can newly break.
//!
//! All sets are bit masks: of operations (`u128`, at most 128), of stores by instruction number
//! (`u64`, at most 40), of the bits of a block's sixteen bytes (`u128`, lowest address in the low
//! byte). A block holds the addresses from a multiple of sixteen on, two lines; every access lies
//! in one, since its address is a multiple of its size. The tests below assume that the prefix
//! without the candidate is consistent.

use super::record::{
    Attribute, Execution, Kind, Role, LINE_SIZE, MAX_INSTRUCTIONS, MAX_LINES, MAX_OPERATIONS,
    MAX_PROCESSORS, MAX_SIZE,
};
use super::search::{accept_position, refusal, SearchAnswer, SearchReply};
use std::ops::Range;

/// Bytes of a block, as many as the longest access has.
const BLOCK_SIZE: usize = MAX_SIZE;
/// Most blocks of a record.
const MAX_BLOCKS: usize = MAX_LINES * LINE_SIZE / BLOCK_SIZE;

/// One search call, with the answers of [`super::search::search`].
pub fn search(bytes: &[u8], buffer: &mut [u8], saved: usize, allowance: u32) -> SearchReply {
    let execution = match accept_position(bytes, buffer, saved) {
        Ok(execution) => execution,
        Err(question) => return refusal(question, saved),
    };
    let tables = Tables::of(&execution);
    let mut state = State::empty(&tables);
    for &entry in &buffer[..saved] {
        let candidate = usize::from(entry);
        if !state.fits(candidate) {
            return refusal(21, saved);
        }
        state.push(candidate);
    }
    let (answer, steps) = run(&mut state, allowance);
    if answer == SearchAnswer::Forbidden {
        let length = saved;
        return SearchReply {
            answer,
            steps,
            length,
        };
    }
    let length = state.length;
    buffer[..length].copy_from_slice(&state.order[..length]);
    SearchReply {
        answer,
        steps,
        length,
    }
}

/// Steps through the consistent prefixes after the state's, and leaves the position reached in the
/// state's order and length, except after 'forbidden'.
fn run(state: &mut State, allowance: u32) -> (SearchAnswer, u32) {
    if state.is_full() {
        return (SearchAnswer::Allowed, 0);
    }
    for steps in 0..allowance {
        if !state.advance() {
            return (SearchAnswer::Forbidden, steps);
        }
        if state.is_full() {
            return (SearchAnswer::Allowed, steps + 1);
        }
    }
    let (order, length) = (state.order, state.length);
    if !state.advance() {
        return (SearchAnswer::Forbidden, allowance);
    }
    (state.order, state.length) = (order, length);
    (SearchAnswer::Unfinished, allowance)
}

/// Rule 2 applies to this pair of kinds.
const A: u8 = 1;
/// Rule 3 applies.
const L: u8 = 2;
/// Rule 4 applies.
const F: u8 = 4;

/// Document 01's table of the program-order rules, earlier kind by row.
const PROGRAM_ORDER: [[u8; 5]; 5] = [
    [0, 0, 0, L, F],
    [A, A, A, A | L, A | F],
    [0, 0, 0, L, F],
    [0, 0, 0, L, F],
    [F, F, F, F, F],
];

/// The row of an earlier kind. Document 02's P3: a semaphore takes that of ld.acq or of st.rel.
fn table_row(kind: Kind) -> usize {
    match kind {
        Kind::SemaphoreAcquire => Kind::LoadAcquire as usize,
        Kind::SemaphoreRelease => Kind::StoreRelease as usize,
        _ => kind as usize,
    }
}

/// The column of a later kind. A semaphore takes that of st or of st.rel.
fn table_column(kind: Kind) -> usize {
    match kind {
        Kind::SemaphoreAcquire => Kind::Store as usize,
        Kind::SemaphoreRelease => Kind::StoreRelease as usize,
        _ => kind as usize,
    }
}

/// What standing in the prefix does.
#[derive(Clone, Copy, PartialEq, Eq)]
enum Effect {
    Nothing,
    Read,
    Local,
    Remote,
}

/// All that `fits`, `push` and `pop` use of one operation, but its predecessors.
#[derive(Clone, Copy)]
struct Step {
    effect: Effect,
    /// For RV of a st.rel to WB or of a sem.rel: all RV of that store.
    release: u128,
    /// The processor whose view it reads or changes, and the block there.
    processor: usize,
    block: usize,
    /// The bits of the access within the block, and the data there: seen for R, written for LV and RV.
    mask: u128,
    data: u128,
    /// For LV and RV: the store's number.
    store: usize,
    /// For R of a semaphore: it alone, by its number.
    semaphore: u64,
    /// For RV_p: the other semaphores by p that overlap it.
    atomic: u64,
    /// For RV: it is RV_own, the store's first.
    own: bool,
    /// For RV: the other stores that coherence orders with this one.
    coherent: u64,
    /// For R: its processor's overlapping stores, and those of them on UC, in whatever domain.
    bypass: u64,
    no_bypass: u64,
}

/// What is fixed by the execution.
struct Tables {
    count: usize,
    /// By operation: those that stand before it in every consistent prefix.
    predecessors: [u128; MAX_OPERATIONS],
    steps: Vec<Step>,
    /// By store number: its bits within its block.
    masks: [u128; MAX_INSTRUCTIONS],
    /// By block: the initial bytes; zeros past the lines.
    initial: [u128; MAX_BLOCKS],
}

impl Tables {
    fn of(e: &Execution) -> Tables {
        let mut masks = [0; MAX_INSTRUCTIONS];
        for store in e.stores() {
            masks[store] = block_mask(e.instructions[store].addresses());
        }
        let mut initial = [0; MAX_BLOCKS];
        for address in 0..e.lines.len() * LINE_SIZE {
            let byte = u128::from(e.initial(address));
            initial[address / BLOCK_SIZE] |= byte << block_shift(address);
        }
        let count = e.operation_count();
        Tables {
            count,
            predecessors: predecessors(e),
            steps: (0..count).map(|at| step_of(e, at)).collect(),
            masks,
            initial,
        }
    }
}

/// The bits of these bytes, of one block, within it.
fn block_mask(addresses: Range<usize>) -> u128 {
    addresses.fold(0, |mask, address| mask | 0xff << block_shift(address))
}

/// Where the bits of this byte begin in its block.
fn block_shift(address: usize) -> usize {
    8 * (address % BLOCK_SIZE)
}

/// Gathers one operation's step.
fn step_of(e: &Execution, operation: usize) -> Step {
    let number = e.operations[operation].instruction;
    let instruction = &e.instructions[number];
    let own = instruction.processor;
    let address = usize::from(instruction.address);
    let data = match e.operations[operation].role {
        Role::Read => instruction.seen,
        Role::Local | Role::Remote(_) | Role::Fence => instruction.written,
    };
    let mut step = Step {
        effect: Effect::Nothing,
        release: 0,
        processor: own,
        block: address / BLOCK_SIZE,
        mask: block_mask(instruction.addresses()),
        data: u128::from_le_bytes(data) << block_shift(address),
        store: number,
        semaphore: 0,
        atomic: 0,
        own: false,
        coherent: 0,
        bypass: 0,
        no_bypass: 0,
    };
    match e.operations[operation].role {
        Role::Fence => {}
        Role::Local => step.effect = Effect::Local,
        Role::Read => {
            step.effect = Effect::Read;
            step.bypass = overlapping_stores(e, number, |w| e.same_program(w, number));
            if e.attribute(number).is_uncacheable() {
                step.no_bypass = step.bypass;
            }
            if instruction.kind.is_semaphore() {
                step.semaphore = 1 << number;
            }
        }
        Role::Remote(q) => {
            step.effect = Effect::Remote;
            step.processor = q;
            step.own = q == own;
            step.release = atomic_release(e, number);
            step.atomic = overlapping_stores(e, number, |w| {
                let other = &e.instructions[w];
                w != number && other.kind.is_semaphore() && other.processor == q
            });
            if e.attribute(number) != Attribute::WriteCoalescing {
                step.coherent = overlapping_stores(e, number, |w| w != number);
            }
        }
    }
    step
}

fn overlapping_stores(e: &Execution, access: usize, wanted: impl Fn(usize) -> bool) -> u64 {
    e.stores()
        .filter(|&w| wanted(w) && e.overlap(access, w))
        .fold(0, |set, w| set | 1 << w)
}

/// All RV of a st.rel to WB or of a sem.rel, which stand together; none for other stores.
fn atomic_release(e: &Execution, store: usize) -> u128 {
    let atomic =
        e.instructions[store].kind.releases() && e.attribute(store) == Attribute::WriteBack;
    if !atomic {
        return 0;
    }
    (0..e.processors).fold(0, |set, q| set | 1 << e.remote(store, q))
}

/// By operation: what the rules put before it in every consistent prefix. These are the links of
/// rules 1 to 8, 13 and 15, and rule 9, whose 'if' always holds where rules 1 and 7 do: RV_own(W2)
/// stands after LV(W2), and that after LV(W1) for W1 earlier in the program.
fn predecessors(e: &Execution) -> [u128; MAX_OPERATIONS] {
    let mut before = [0; MAX_OPERATIONS];
    let mut require = |a: usize, b: usize| before[b] |= 1 << a;
    for store in e.stores() {
        let (local, own) = (e.local(store), e.remote_own(store));
        require(local, own);
        for other in e.operations_of(store) {
            if other < local {
                require(other, local);
            }
            if other > local && other != own {
                require(own, other);
            }
        }
    }
    for later in 0..e.instructions.len() {
        for earlier in (0..later).filter(|&earlier| e.same_program(earlier, later)) {
            require_program_order(e, earlier, later, &mut require);
            require_access_order(e, earlier, later, &mut require);
        }
    }
    before
}

/// Rules 2 to 4, by the table.
fn require_program_order(
    e: &Execution,
    earlier: usize,
    later: usize,
    require: &mut impl FnMut(usize, usize),
) {
    let kinds = [earlier, later].map(|i| e.instructions[i].kind);
    let marks = PROGRAM_ORDER[table_row(kinds[0])][table_column(kinds[1])];
    if marks == 0 {
        return;
    }
    for a in e.operations_of(earlier) {
        for b in e.operations_of(later) {
            let roles = [a, b].map(|at| e.operations[at].role);
            let from_read = roles[0] == Role::Read;
            let fence = marks & F != 0;
            let acquire = marks & A != 0 && from_read;
            let release = marks & L != 0 && (from_read || roles[0] == roles[1]);
            if fence || acquire || release {
                require(a, b);
            }
        }
    }
}

/// Rules 5 to 9 and 13: the data and the flow between two accesses, and their order on UC.
fn require_access_order(
    e: &Execution,
    earlier: usize,
    later: usize,
    require: &mut impl FnMut(usize, usize),
) {
    let kinds = [earlier, later].map(|i| e.instructions[i].kind);
    if kinds.contains(&Kind::Fence) {
        return;
    }
    let flow = e.pairs.contains(&(earlier as u8, later as u8));
    let domains = [earlier, later].map(|i| e.attribute(i).domain());
    let one_domain = domains[0].is_some() && domains[0] == domains[1];
    if flow || one_domain {
        require(e.read_or_local(earlier), e.read_or_local(later));
    }
    if !e.overlap(earlier, later) {
        return;
    }
    let (loads, stores) = (kinds.map(Kind::is_load), kinds.map(Kind::is_store));
    if stores[0] && loads[1] {
        require(e.local(earlier), e.read(later));
    }
    if loads[0] && stores[1] {
        require(e.read(earlier), e.local(later));
    }
    if stores == [true, true] {
        require(e.local(earlier), e.local(later));
        if e.attribute(later) != Attribute::WriteCoalescing {
            require(e.remote_own(earlier), e.remote_own(later));
        }
    }
}

/// A consistent prefix and what follows from it.
struct State<'a> {
    tables: &'a Tables,
    order: [u8; MAX_OPERATIONS],
    length: usize,
    /// The operations that stand.
    standing: u128,
    /// The RV still missing of a st.rel to WB or a sem.rel that has begun: one of them comes next (rule 12).
    open: u128,
    /// Stores whose LV stands, whose RV_own stands, and by processor whose RV_p stands.
    local: u64,
    started: u64,
    remote: [u64; MAX_PROCESSORS],
    /// Semaphores whose R stands.
    read: u64,
    /// By started store: the stores that coherence puts before it (rule 10).
    earlier: [u64; MAX_INSTRUCTIONS],
    /// By processor and block: the latest byte of its own LV, and of the RV at it, else initial.
    written: [[u128; MAX_BLOCKS]; MAX_PROCESSORS],
    visible: [[u128; MAX_BLOCKS]; MAX_PROCESSORS],
    /// By place: the word of `written` or `visible` that the operation there replaced.
    replaced: [u128; MAX_OPERATIONS],
}

impl<'a> State<'a> {
    fn empty(tables: &'a Tables) -> State<'a> {
        State {
            tables,
            order: [0; MAX_OPERATIONS],
            length: 0,
            standing: 0,
            open: 0,
            local: 0,
            started: 0,
            remote: [0; MAX_PROCESSORS],
            read: 0,
            earlier: [0; MAX_INSTRUCTIONS],
            written: [[0; MAX_BLOCKS]; MAX_PROCESSORS],
            visible: [tables.initial; MAX_PROCESSORS],
            replaced: [0; MAX_OPERATIONS],
        }
    }

    fn is_full(&self) -> bool {
        self.length == self.tables.count
    }

    /// Goes to the next consistent prefix in lexicographic order; false, and empty, if there is none.
    fn advance(&mut self) -> bool {
        let mut from = 0;
        loop {
            if let Some(candidate) = self.first_fit(from) {
                self.push(candidate);
                return true;
            }
            match self.pop() {
                Some(last) => from = last + 1,
                None => return false,
            }
        }
    }

    /// The first operation from `from` on that keeps the prefix consistent.
    fn first_fit(&self, from: usize) -> Option<usize> {
        let mut candidates = u128::MAX.checked_shl(from as u32).unwrap_or(0) & !self.standing;
        if self.open != 0 {
            candidates &= self.open;
        }
        while candidates != 0 {
            let candidate = candidates.trailing_zeros() as usize;
            if candidate >= self.tables.count {
                return None;
            }
            if self.fits(candidate) {
                return Some(candidate);
            }
            candidates &= candidates - 1;
        }
        None
    }

    /// Whether the prefix stays consistent with this operation, which does not stand, at its end.
    fn fits(&self, candidate: usize) -> bool {
        if self.tables.predecessors[candidate] & !self.standing != 0 {
            return false;
        }
        if self.open != 0 && self.open >> candidate & 1 == 0 {
            return false;
        }
        let step = &self.tables.steps[candidate];
        match step.effect {
            Effect::Nothing | Effect::Local => true,
            Effect::Read => self.read_fits(step),
            Effect::Remote => {
                // Rule 16: RV_own of a semaphore whose R stands comes first.
                let between = step.atomic & self.read & !self.started;
                between == 0 && self.coherence_before(step) & !self.remote[step.processor] == 0
            }
        }
    }

    /// The stores whose RV_p stands before this RV_p by rule 10: those that started first. The
    /// first RV of a store anywhere is RV_own (rule 1), and it settles the order for every p.
    fn coherence_before(&self, step: &Step) -> u64 {
        if self.started >> step.store & 1 == 1 {
            self.earlier[step.store]
        } else {
            step.coherent & self.started
        }
    }

    /// Rules 11 and 14 for an R that comes next.
    fn read_fits(&self, step: &Step) -> bool {
        let pending = self.local & !self.started;
        if step.no_bypass & pending != 0 {
            return false;
        }
        let mut own = 0;
        let mut bypassing = step.bypass & pending;
        while bypassing != 0 {
            own |= self.tables.masks[bypassing.trailing_zeros() as usize];
            bypassing &= bypassing - 1;
        }
        let written = self.written[step.processor][step.block];
        let visible = self.visible[step.processor][step.block];
        let seen = (written & own) | (visible & !own);
        (seen ^ step.data) & step.mask == 0
    }

    /// Puts an operation that fits at the end.
    fn push(&mut self, operation: usize) {
        let step = &self.tables.steps[operation];
        self.standing |= 1 << operation;
        self.open = step.release & !self.standing;
        match step.effect {
            Effect::Nothing => {}
            Effect::Read => self.read |= step.semaphore,
            Effect::Local => {
                let word = &mut self.written[step.processor][step.block];
                self.replaced[self.length] = *word;
                *word = (*word & !step.mask) | step.data;
                self.local |= 1 << step.store;
            }
            Effect::Remote => {
                let word = &mut self.visible[step.processor][step.block];
                self.replaced[self.length] = *word;
                *word = (*word & !step.mask) | step.data;
                self.remote[step.processor] |= 1 << step.store;
                if step.own {
                    self.earlier[step.store] = step.coherent & self.started;
                    self.started |= 1 << step.store;
                }
            }
        }
        self.order[self.length] = operation as u8;
        self.length += 1;
    }

    /// Takes the last operation off, if there is one.
    fn pop(&mut self) -> Option<usize> {
        self.length = self.length.checked_sub(1)?;
        let operation = usize::from(self.order[self.length]);
        let step = &self.tables.steps[operation];
        self.standing &= !(1 << operation);
        let begun = step.release & self.standing != 0;
        self.open = if begun {
            step.release & !self.standing
        } else {
            0
        };
        match step.effect {
            Effect::Nothing => {}
            Effect::Read => self.read &= !step.semaphore,
            Effect::Local => {
                self.written[step.processor][step.block] = self.replaced[self.length];
                self.local &= !(1 << step.store);
            }
            Effect::Remote => {
                self.visible[step.processor][step.block] = self.replaced[self.length];
                self.remote[step.processor] &= !(1 << step.store);
                if step.own {
                    self.started &= !(1 << step.store);
                }
            }
        }
        Some(operation)
    }
}

#[cfg(test)]
mod tests {
    use super::*;
    use crate::generate::{execution, Shape};
    use crate::random::Random;
    use crate::reference::rules::links;
    use std::collections::BTreeSet;

    /// The predecessors are the rules' links and rule 9's pairs, though written another way.
    #[test]
    fn predecessors_are_links_and_own_coherence() {
        let mut random = Random::new(1);
        for _ in 0..300 {
            let e = execution(&mut random, &Shape::LARGE);
            let mut expected: BTreeSet<_> = links(&e).into_iter().collect();
            for w2 in e.stores() {
                for w1 in e.stores().filter(|&w1| w1 < w2 && e.same_program(w1, w2)) {
                    if e.overlap(w1, w2) && e.attribute(w1) != Attribute::WriteCoalescing {
                        expected.insert((e.remote_own(w1), e.remote_own(w2)));
                    }
                }
            }
            let before = predecessors(&e);
            let linked = |&(a, b): &(usize, usize)| before[b] >> a & 1 == 1;
            let count = e.operation_count();
            let all = (0..count).flat_map(|a| (0..count).map(move |b| (a, b)));
            assert_eq!(all.filter(linked).collect::<BTreeSet<_>>(), expected);
        }
    }
}
