//! The visibility rules 1 to 16, each by the sentence of document 01 or 02, what a prefix breaks of them, and the judge.

use super::record::{ask, read, Attribute, Execution, Kind, MAX_OPERATIONS};

/// What the judge says of an order.
#[derive(Clone, Copy, PartialEq, Eq, Debug)]
pub enum JudgeAnswer {
    Legal,
    /// The lowest rule number that the order breaks.
    Breaks(u8),
    /// The number of the first question answered 'no'.
    Refused(u8),
}

/// Judges an order of all operations: the record's questions, then 16 and 17, then the rules.
pub fn judge(bytes: &[u8], order: &[u8]) -> JudgeAnswer {
    let execution = match accept_order(bytes, order) {
        Ok(execution) => execution,
        Err(question) => return JudgeAnswer::Refused(question),
    };
    match lowest_broken(&execution, order) {
        None => JudgeAnswer::Legal,
        Some(rule) => JudgeAnswer::Breaks(rule),
    }
}

fn accept_order(bytes: &[u8], order: &[u8]) -> Result<Execution, u8> {
    let execution = read(bytes)?;
    ask(16, order.len() == execution.operation_count())?;
    ask(17, entries_differ(order, execution.operation_count()))?;
    Ok(execution)
}

/// Question 17's test: each entry below N and different from those before it.
pub(crate) fn entries_differ(entries: &[u8], count: usize) -> bool {
    (0..entries.len()).all(|at| {
        let entry = entries[at];
        usize::from(entry) < count && !entries[..at].contains(&entry)
    })
}

/// The lowest rule that the facts settled by the prefix break; none when it is consistent
/// (document 01: when the beginning is clean). The entries are different operations.
pub fn lowest_broken(execution: &Execution, prefix: &[u8]) -> Option<u8> {
    let settled = Settled::by(prefix);
    let broken = |rule: &Rule| match rule {
        Rule::Requires(links) => some_link_reversed(execution, &settled, *links),
        Rule::Broken(test) => test(execution, &settled),
    };
    RULES.iter().position(broken).map(|at| at as u8 + 1)
}

/// The links: each 'before' that rules 1 to 8, 13 and 15 require without an 'if'.
pub fn links(execution: &Execution) -> Vec<(usize, usize)> {
    let rules = 1..=RULES.len() as u8;
    rules.flat_map(|rule| links_of(execution, rule)).collect()
}

/// The links that one rule requires; none where it requires nothing without an 'if'.
pub fn links_of(execution: &Execution, rule: u8) -> Vec<(usize, usize)> {
    let mut all = Vec::new();
    if let Rule::Requires(links) = &RULES[usize::from(rule) - 1] {
        links(execution, &mut |a, b| all.push((a, b)));
    }
    all
}

/// Takes each required 'a before b'.
type Require<'a> = dyn FnMut(usize, usize) + 'a;

enum Rule {
    /// Lists the 'before's that the rule requires without an 'if'.
    Requires(fn(&Execution, &mut Require)),
    /// Says whether settled facts break the rule.
    Broken(fn(&Execution, &Settled) -> bool),
}

/// Rule k stands at k - 1.
const RULES: [Rule; 16] = [
    Rule::Requires(write_order),
    Rule::Requires(acquire),
    Rule::Requires(release),
    Rule::Requires(fence),
    Rule::Requires(read_after_write),
    Rule::Requires(write_after_read),
    Rule::Requires(write_after_write),
    Rule::Requires(data_flow),
    Rule::Broken(breaks_own_coherence),
    Rule::Broken(breaks_coherence),
    Rule::Broken(breaks_read_value),
    Rule::Broken(breaks_release_atomicity),
    Rule::Requires(uncacheable_order),
    Rule::Broken(breaks_no_bypass),
    Rule::Requires(read_before_write),
    Rule::Broken(breaks_semaphore_atomicity),
];

/// The facts that a prefix settles.
pub(crate) struct Settled {
    /// By operation: its place in the prefix, or `ABSENT`.
    place: [usize; MAX_OPERATIONS],
}

/// The place of an operation that does not stand: later than every place.
const ABSENT: usize = usize::MAX;

impl Settled {
    pub(crate) fn by(prefix: &[u8]) -> Settled {
        let mut place = [ABSENT; MAX_OPERATIONS];
        for (at, &operation) in prefix.iter().enumerate() {
            place[usize::from(operation)] = at;
        }
        Settled { place }
    }

    /// 'a before b' is settled: a stands, and b stands later or not at all.
    fn before(&self, a: usize, b: usize) -> bool {
        self.place[a] < self.place[b]
    }

    fn stands(&self, a: usize) -> bool {
        self.place[a] != ABSENT
    }
}

fn some_link_reversed(
    execution: &Execution,
    settled: &Settled,
    links: fn(&Execution, &mut Require),
) -> bool {
    let mut reversed = false;
    links(execution, &mut |a, b| reversed |= settled.before(b, a));
    reversed
}

/// All pairs of an earlier and a later instruction of one program.
fn program_order(e: &Execution) -> impl Iterator<Item = (usize, usize)> + '_ {
    let count = e.instructions.len();
    (0..count)
        .flat_map(move |earlier| (earlier + 1..count).map(move |later| (earlier, later)))
        .filter(|&(earlier, later)| e.same_program(earlier, later))
}

/// Rule 1, WO: LV(W) before RV_own(W); RV_own(W) before every other RV_q(W).
fn write_order(e: &Execution, require: &mut Require) {
    for w in e.stores() {
        let own = e.remote_own(w);
        require(e.local(w), own);
        for q in 0..e.processors {
            if e.remote(w, q) != own {
                require(own, e.remote(w, q));
            }
        }
    }
}

/// Rule 2, ACQ: an ld.acq's R before every operation of each later instruction of its program. Since
/// document 02's P3: an acquiring semaphore's too; its LV and RV hold nothing back.
fn acquire(e: &Execution, require: &mut Require) {
    for (earlier, later) in program_order(e) {
        if e.instructions[earlier].kind.acquires() {
            for operation in e.operations_of(later) {
                require(e.read(earlier), operation);
            }
        }
    }
}

/// Rule 3, REL: for an earlier load, its R before every operation of the st.rel. For an earlier
/// store, LV before LV, and RV_q before RV_q for each q. Since document 02's P3: of a releasing
/// semaphore too, its R among its operations; an earlier semaphore is both a load and a store.
fn release(e: &Execution, require: &mut Require) {
    for (earlier, later) in program_order(e) {
        if !e.instructions[later].kind.releases() {
            continue;
        }
        if e.instructions[earlier].kind.is_load() {
            for operation in e.operations_of(later) {
                require(e.read(earlier), operation);
            }
        }
        if e.instructions[earlier].kind.is_store() {
            require(e.local(earlier), e.local(later));
            for q in 0..e.processors {
                require(e.remote(earlier, q), e.remote(later, q));
            }
        }
    }
}

/// Rule 4, FEN: all operations of earlier instructions before F, and F before all of later ones,
/// other mf included.
fn fence(e: &Execution, require: &mut Require) {
    for (earlier, later) in program_order(e) {
        if e.instructions[later].kind == Kind::Fence {
            let f = e.operations_of(later).start;
            for operation in e.operations_of(earlier) {
                require(operation, f);
            }
        }
        if e.instructions[earlier].kind == Kind::Fence {
            let f = e.operations_of(earlier).start;
            for operation in e.operations_of(later) {
                require(f, operation);
            }
        }
    }
}

/// Rule 5, MD:RAW: store, then overlapping load in one program: LV before R. As in rules 6 and 7 the
/// two are different instructions, and a semaphore is either.
fn read_after_write(e: &Execution, require: &mut Require) {
    for (earlier, later) in program_order(e) {
        let kinds = (e.instructions[earlier].kind, e.instructions[later].kind);
        if kinds.0.is_store() && kinds.1.is_load() && e.overlap(earlier, later) {
            require(e.local(earlier), e.read(later));
        }
    }
}

/// Rule 6, MD:WAR: load, then overlapping store: R before LV.
fn write_after_read(e: &Execution, require: &mut Require) {
    for (earlier, later) in program_order(e) {
        let kinds = (e.instructions[earlier].kind, e.instructions[later].kind);
        if kinds.0.is_load() && kinds.1.is_store() && e.overlap(earlier, later) {
            require(e.read(earlier), e.local(later));
        }
    }
}

/// Rule 7, MD:WAW: two overlapping stores: LV before LV.
fn write_after_write(e: &Execution, require: &mut Require) {
    for (earlier, later) in program_order(e) {
        let kinds = (e.instructions[earlier].kind, e.instructions[later].kind);
        if kinds.0.is_store() && kinds.1.is_store() && e.overlap(earlier, later) {
            require(e.local(earlier), e.local(later));
        }
    }
}

/// Rule 8, DF: for a given pair, R or LV of the first before R or LV of the second; R where it is a
/// semaphore, as the first and as the second.
fn data_flow(e: &Execution, require: &mut Require) {
    for &(first, second) in &e.pairs {
        let (first, second) = (usize::from(first), usize::from(second));
        require(e.read_or_local(first), e.read_or_local(second));
    }
}

/// All ordered pairs of different overlapping stores to WB or UC, in whatever domain, which coherence is about.
fn coherent_stores(e: &Execution) -> impl Iterator<Item = (usize, usize)> + '_ {
    e.stores()
        .flat_map(|w1| e.stores().map(move |w2| (w1, w2)))
        .filter(|&(w1, w2)| w1 != w2 && e.overlap(w1, w2))
        .filter(|&(w1, _)| e.attribute(w1) != Attribute::WriteCoalescing)
}

/// Rule 9, COH: overlapping stores of one processor, WB or UC: if LV(W1) before LV(W2),
/// RV_own(W1) before RV_own(W2).
fn breaks_own_coherence(e: &Execution, s: &Settled) -> bool {
    coherent_stores(e)
        .filter(|&(w1, w2)| e.same_program(w1, w2))
        .any(|(w1, w2)| {
            s.before(e.local(w1), e.local(w2)) && s.before(e.remote_own(w2), e.remote_own(w1))
        })
}

/// Rule 10, COH: overlapping stores of any processors, WB or UC: if RV_p(W1) before RV_p(W2),
/// then RV_q likewise for every q.
fn breaks_coherence(e: &Execution, s: &Settled) -> bool {
    coherent_stores(e).any(|(w1, w2)| {
        let first_before = |p| s.before(e.remote(w1, p), e.remote(w2, p));
        let second_before = |q| s.before(e.remote(w2, q), e.remote(w1, q));
        (0..e.processors).any(first_before) && (0..e.processors).any(second_before)
    })
}

/// Rule 11, read value, for each byte of a load, in the lower half as in the upper one; settled once its R stands.
fn breaks_read_value(e: &Execution, s: &Settled) -> bool {
    e.loads().any(|load| {
        let instruction = &e.instructions[load];
        s.stands(e.read(load))
            && instruction
                .addresses()
                .any(|b| instruction.byte_seen(b) != byte_read(e, s, load, b))
    })
}

/// The byte that rule 11 gives a standing R for address b. R is local for b if some store W
/// by p to b has LV(W) before R before RV_p(W). If local, b is the byte of p's store to b
/// whose LV is the latest before R. If not, it is the byte of the store, by anyone, whose
/// RV_p is the latest before R; with no such store, the initial byte. A semaphore's own store
/// is one of them.
pub(crate) fn byte_read(e: &Execution, s: &Settled, load: usize, b: usize) -> u8 {
    let r = e.read(load);
    let p = e.instructions[load].processor;
    let stores = || e.stores().filter(|&w| e.instructions[w].covers(b));
    let own = || stores().filter(|&w| e.instructions[w].processor == p);
    let local = own().any(|w| s.before(e.local(w), r) && s.before(r, e.remote(w, p)));
    let source = if local {
        own()
            .filter(|&w| s.before(e.local(w), r))
            .max_by_key(|&w| s.place[e.local(w)])
    } else {
        stores()
            .filter(|&w| s.before(e.remote(w, p), r))
            .max_by_key(|&w| s.place[e.remote(w, p)])
    };
    source.map_or_else(|| e.initial(b), |w| e.instructions[w].byte_written(b))
}

/// Rule 12, WBR: between two RV of one st.rel to WB stand only RV of that st.rel. Since document
/// 02's P3: of a releasing semaphore too.
fn breaks_release_atomicity(e: &Execution, s: &Settled) -> bool {
    let to_write_back =
        |&w: &usize| e.instructions[w].kind.releases() && e.attribute(w) == Attribute::WriteBack;
    e.stores().filter(to_write_back).any(|w| {
        let remote = e.remote(w, 0)..e.remote(w, e.processors);
        (0..e.operation_count())
            .filter(|other| !remote.contains(other))
            .any(|other| {
                remote.clone().any(|rv| s.before(rv, other))
                    && remote.clone().any(|rv| s.before(other, rv))
            })
    })
}

/// Rule 13, UC order: two UC accesses of one program: R or LV of the first before R or LV of the
/// second. Since document 02's P6: only where both are in one domain.
fn uncacheable_order(e: &Execution, require: &mut Require) {
    let uncacheable =
        |i: usize| e.instructions[i].kind != Kind::Fence && e.attribute(i).is_uncacheable();
    let one_domain = |i, j| e.attribute(i).domain() == e.attribute(j).domain();
    for (earlier, later) in program_order(e) {
        if uncacheable(earlier) && uncacheable(later) && one_domain(earlier, later) {
            require(e.read_or_local(earlier), e.read_or_local(later));
        }
    }
}

/// Rule 14, no UC bypass: for a UC store and an overlapping load of one processor, never LV(W)
/// before R before RV_own(W). The domain does not matter.
fn breaks_no_bypass(e: &Execution, s: &Settled) -> bool {
    e.stores()
        .filter(|&w| e.attribute(w).is_uncacheable())
        .any(|w| {
            e.loads()
                .filter(|&load| e.same_program(w, load) && e.overlap(w, load))
                .map(|load| e.read(load))
                .any(|r| s.before(e.local(w), r) && s.before(r, e.remote_own(w)))
        })
}

/// Rule 15: R before LV of the same semaphore.
fn read_before_write(e: &Execution, require: &mut Require) {
    for semaphore in e.semaphores() {
        require(e.read(semaphore), e.local(semaphore));
    }
}

/// Rule 16: no RV_p of another overlapping store between R and RV_p of a semaphore by p.
fn breaks_semaphore_atomicity(e: &Execution, s: &Settled) -> bool {
    e.semaphores().any(|semaphore| {
        let p = e.instructions[semaphore].processor;
        let (r, rv) = (e.read(semaphore), e.remote(semaphore, p));
        e.stores()
            .filter(|&w| w != semaphore && e.overlap(w, semaphore))
            .map(|w| e.remote(w, p))
            .any(|other| s.before(r, other) && s.before(other, rv))
    })
}
