//! What the chain table says of orders (document 02, P5): the proved marks beside every order of small records, beside orders that
//! keep the links of large ones, and beside legal orders; which marks rest on which rule; what a mark of 0 does not say.

use oglindesh::examples::longest;
use oglindesh::executions::{source, SOURCES};
use oglindesh::generate::{every_order, execution, give_shown, order, Shape};
use oglindesh::proved::Judgement::{Breaks, Legal};
use oglindesh::proved::{chain_table, judge, search, Judgement, Verdict};
use oglindesh::random::Random;
use oglindesh::reference::notation::{acq, ld, mf, programs, rel, sem_acq, st, uc, X, Y};
use oglindesh::reference::record::{read, Execution, Instruction, Kind, MAX_OPERATIONS};
use oglindesh::reference::rules::{links, links_of};
use std::collections::BTreeSet;

/// The rules that demand links.
const LINK_RULES: [u8; 10] = [1, 2, 3, 4, 5, 6, 7, 8, 13, 15];

/// Two operations, of which the first is to stand before the second.
type Pair = (usize, usize);

/// All pairs of so many operations, row by row, with the diagonal.
fn pairs(count: usize) -> impl Iterator<Item = Pair> {
    (0..count).flat_map(move |a| (0..count).map(move |b| (a, b)))
}

/// Whether of each of these pairs the first stands before the second.
fn keeps(order: &[u8], pairs: &[Pair]) -> bool {
    let mut place = [0; MAX_OPERATIONS];
    for (at, &operation) in order.iter().enumerate() {
        place[usize::from(operation)] = at;
    }
    pairs.iter().all(|&(a, b)| place[a] < place[b])
}

/// The pairs that all these orders keep, row by row; there is at least one order.
fn kept_by_all(orders: &[&Vec<u8>]) -> Vec<Pair> {
    let kept = |&pair: &Pair| orders.iter().all(|order| keeps(order, &[pair]));
    pairs(orders[0].len()).filter(kept).collect()
}

/// An order that keeps these links: all that they lead to `b` from, then `b`, then the others, as random as the links let them.
fn early(random: &mut Random, count: usize, links: &[Pair], b: usize) -> Vec<u8> {
    let mut early = Vec::new();
    put(b, links, &mut early);
    for next in order(random, count) {
        put(next.into(), links, &mut early);
    }
    early
}

/// Puts an operation into the order behind all that links lead to it from, unless it stands there.
fn put(operation: usize, links: &[Pair], order: &mut Vec<u8>) {
    if !order.contains(&(operation as u8)) {
        for link in links.iter().filter(|link| link.1 == operation) {
            put(link.0, links, order);
        }
        order.push(operation as u8);
    }
}

/// An accepted record, its links as the reference reads the rules, and the marks of 1 in its proved table, row by row.
struct Marked {
    bytes: Vec<u8>,
    count: usize,
    links: Vec<Pair>,
    marks: Vec<Pair>,
}

impl Marked {
    /// No mark on the diagonal is 1.
    fn of(e: &Execution) -> Marked {
        let (bytes, count) = (e.to_bytes(), e.operation_count());
        let mut table = vec![9; count * count];
        assert_eq!(chain_table(&bytes, &mut table), Ok(()), "{e:?}");
        assert!(table.iter().all(|&mark| mark <= 1), "{e:?}");
        let marked = |&(a, b): &Pair| table[a * count + b] == 1;
        assert!((0..count).all(|a| !marked(&(a, a))), "{e:?}");
        Marked {
            bytes,
            count,
            links: links(e),
            marks: pairs(count).filter(marked).collect(),
        }
    }

    fn judged(&self, order: &[u8]) -> Judgement {
        judge(&self.bytes, order).expect("it is an order of all operations")
    }

    /// Whether the order keeps every link; then the judge names no rule that demands links.
    fn is_linked(&self, order: &[u8]) -> bool {
        let linked = keeps(order, &self.links);
        let named = || LINK_RULES.map(Breaks).contains(&self.judged(order));
        assert!(!linked || !named(), "record {:?}, {order:?}", self.bytes);
        linked
    }

    /// Whether the judge calls the order legal; then it keeps every link and every mark of 1.
    fn is_legal(&self, order: &[u8]) -> bool {
        let legal = self.judged(order) == Legal;
        let kept = || self.is_linked(order) && keeps(order, &self.marks);
        assert!(!legal || kept(), "record {:?}, {order:?}", self.bytes);
        legal
    }

    /// The order that a short search from this position finds, a legal one; the position need not be consistent.
    fn found(&self, position: &[u8]) -> Option<Vec<u8>> {
        let mut buffer = position.to_vec();
        buffer.resize(self.count, 0);
        let answer = search(&self.bytes, &mut buffer, position.len(), 300).answer;
        assert!(matches!(answer, Ok(_) | Err(21)), "{answer:?}");
        let found = (answer == Ok(Verdict::Allowed)).then_some(buffer);
        assert!(found.iter().all(|order| self.is_legal(order)), "{found:?}");
        found
    }
}

/// What was met, and how often.
#[derive(Default, Debug)]
struct Met {
    /// Records with each kind; with dependences, sixteen bytes, two domains.
    records: [usize; 10],
    /// Marks of 1 by more than one link, marks of 0 beside the diagonal, legal orders.
    chains: usize,
    zeros: usize,
    legal: usize,
}

impl Met {
    fn count(&mut self, e: &Execution, record: &Marked, legal: usize) {
        let any = |has: &dyn Fn(&Instruction) -> bool| e.instructions.iter().any(has);
        let lines = e.instructions.iter().flat_map(Instruction::lines);
        let domains = lines.filter_map(|line| e.lines[line].attribute.domain());
        let two_domains = domains.collect::<BTreeSet<u8>>().len() > 1;
        let others = [!e.pairs.is_empty(), any(&|i| i.size == 16), two_domains];
        let kinds = Kind::ALL.map(|kind| any(&|i| i.kind == kind));
        for (records, has) in self.records.iter_mut().zip([&kinds[..], &others].concat()) {
            *records += usize::from(has);
        }
        let links: BTreeSet<&Pair> = record.links.iter().collect();
        let chains = record.marks.iter().filter(|mark| !links.contains(mark));
        self.chains += chains.count();
        self.zeros += record.count * record.count - record.count - record.marks.len();
        self.legal += legal;
    }

    fn assert_over(&self, records: usize, chains: usize, zeros: usize, legal: usize) {
        assert!(self.records.iter().all(|&met| met > records), "{self:?}");
        assert!(self.chains > chains && self.zeros > zeros, "{self:?}");
        assert!(self.legal > legal, "{self:?}");
    }
}

/// The marks of 1 are the pairs that all orders keep which keep the links; so for each mark of 0 one of them does not.
#[test]
fn every_order_of_small_records() {
    let mut seven = Shape::TINY;
    seven.operations = 7;
    let all: Vec<_> = (0..=seven.operations).map(every_order).collect();
    let (mut random, mut met, mut without_mark) = (Random::new(51), Met::default(), 0);
    for round in 0..2_000 {
        let e = execution(&mut random, &[Shape::TINY, seven][round % 2]);
        let record = Marked::of(&e);
        let orders = || all[record.count].iter();
        let linked: Vec<_> = orders().filter(|o| record.is_linked(o)).collect();
        assert_eq!(kept_by_all(&linked), record.marks, "{e:?}");
        let legal: Vec<_> = orders().filter(|o| record.is_legal(o)).collect();
        if !legal.is_empty() {
            without_mark += kept_by_all(&legal).len() - record.marks.len();
        }
        met.count(&e, &record, legal.len());
    }
    met.assert_over(60, 3_000, 20_000, 10_000);
    // Pairs with a mark of 0 that all legal orders keep, as in `other_rules_bind_too`.
    assert!(without_mark > 1_000, "{without_mark}");
}

/// Holds the marks of a record to an order for each operation b that keeps the links, in which b stands behind those that have a
/// mark of 1 to it, and before all others; and to the legal orders that the search finds from there. How many these are.
fn hold(random: &mut Random, met: &mut Met, e: &Execution) -> usize {
    let record = Marked::of(e);
    let mut found: BTreeSet<Vec<u8>> = record.found(&[]).into_iter().collect();
    for b in 0..record.count {
        let order = early(random, record.count, &record.links, b);
        let operations = order.iter().map(|&operation| usize::from(operation));
        let before: BTreeSet<usize> = operations.take_while(|&a| a != b).collect();
        let marked = record.marks.iter().filter(|mark| mark.1 == b);
        let marked: BTreeSet<usize> = marked.map(|mark| mark.0).collect();
        assert_eq!(before, marked, "{e:?}, to {b}");
        assert!(record.is_linked(&order) && keeps(&order, &record.marks));
        found.extend(record.found(&order[..=before.len()]));
    }
    met.count(e, &record, found.len());
    found.len()
}

/// Of all shapes, as large as records may be; half of them with values that some order shows.
#[test]
fn generated_records() {
    let (mut random, mut met) = (Random::new(52), Met::default());
    let (mut largest, mut found_in_large) = (0, hold(&mut random, &mut met, &longest()));
    for round in 0..450 {
        let mut e = execution(&mut random, &Shape::ALL[round % 3]);
        if round % 2 == 0 {
            give_shown(&mut random, &mut e);
        }
        let found = hold(&mut random, &mut met, &e);
        largest = largest.max(e.operation_count());
        found_in_large += if e.operation_count() > 60 { found } else { 0 };
    }
    met.assert_over(30, 30_000, 500_000, 1_200);
    assert!(largest == MAX_OPERATIONS && found_in_large > 100);
}

/// Every accepted execution of the papers, on all memory attributes that something is claimed for.
#[test]
fn the_papers_executions() {
    let (mut random, mut met, mut held) = (Random::new(53), Met::default(), BTreeSet::new());
    let sources = SOURCES.map(|file| source(file).expect("it is read"));
    for written in sources.iter().flatten() {
        let claimed = written.claims.iter().flat_map(|claim| written.mixes(claim));
        for e in claimed.chain([written.execution.clone()]) {
            let bytes = e.to_bytes();
            if read(&bytes).is_ok() && held.insert(bytes) {
                hold(&mut random, &mut met, &e);
            }
        }
    }
    met.assert_over(20, 10_000, 100_000, 2_000);
    assert!(held.len() > 1_000, "{} records", held.len());
}

/// For each rule a mark of 1 that rests on it alone: an order keeps the links of all others, and turns the two round.
#[test]
fn each_rule_alone() {
    let one = |program: &[Instruction]| programs(&[program]);
    let loads = || one(&[ld(X, 0), ld(Y, 0)]);
    let rows = [
        (1, programs(&[&[st(X, 1)], &[]]), (0, 2), vec![2, 0, 1]),
        (2, one(&[acq(X, 0), ld(Y, 0)]), (0, 1), vec![1, 0]),
        (3, one(&[st(X, 1), rel(Y, 1)]), (1, 3), vec![0, 2, 3, 1]),
        (4, one(&[ld(X, 0), mf(), ld(Y, 0)]), (0, 2), vec![2, 1, 0]),
        (5, one(&[st(X, 1), ld(X, 0)]), (0, 2), vec![2, 0, 1]),
        (6, one(&[ld(X, 1), st(X, 1)]), (0, 2), vec![1, 2, 0]),
        (7, one(&[st(X, 1), st(X, 2)]), (0, 3), vec![2, 3, 0, 1]),
        (8, loads().pair(0, 1), (0, 1), vec![1, 0]),
        (13, loads().all_lines(uc(1)), (0, 1), vec![1, 0]),
        (15, one(&[sem_acq(X, 0, 0)]), (0, 2), vec![1, 2, 0]),
    ];
    assert!(rows.iter().map(|row| row.0).eq(LINK_RULES));
    for (rule, draft, mark, order) in rows {
        let e = draft.build();
        let record = Marked::of(&e);
        assert!(record.marks.contains(&mark), "rule {rule}");
        let others = LINK_RULES.into_iter().filter(|&other| other != rule);
        let others: Vec<Pair> = others.flat_map(|other| links_of(&e, other)).collect();
        assert!(keeps(&order, &others), "rule {rule}");
        assert!(!keeps(&order, &[mark]), "rule {rule}");
        assert_eq!(record.judged(&order), Breaks(rule));
    }
}

/// A mark of 0 does not say that the two may stand either way in a legal order: rule 11, and on UC rule 14, have a store's RV
/// before the R that sees it, though no link leads there.
#[test]
fn other_rules_bind_too() {
    // LV 0, RV 1 and 2, and R 3 of another processor; LV 0, RV 1 and R 2 of one processor.
    let seen = programs(&[&[st(X, 1)], &[ld(X, 1)]]);
    let uncacheable = programs(&[&[st(X, 1), ld(X, 1)]]).all_lines(uc(0));
    for (draft, (a, b), rule) in [(seen, (2, 3), 11), (uncacheable, (1, 2), 14)] {
        let record = Marked::of(&draft.build());
        assert!(!record.marks.contains(&(a, b)) && !record.marks.contains(&(b, a)));
        let orders = every_order(record.count);
        let legal: Vec<_> = orders.iter().filter(|o| record.is_legal(o)).collect();
        assert!(kept_by_all(&legal).contains(&(a, b)));
        let linked = orders.iter().filter(|o| record.is_linked(o));
        let turned: Vec<_> = linked.filter(|o| keeps(o, &[(b, a)])).collect();
        assert!(!turned.is_empty());
        assert!(turned.iter().all(|o| record.judged(o) == Breaks(rule)));
    }
}
