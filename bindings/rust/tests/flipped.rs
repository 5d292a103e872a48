//! Flipped heaps: threads read, write, make objects and sweep while the heap is compacted.

use std::sync::Mutex;
use std::thread;

use compressor::flipped::{Audit, Kind};
use compressor::{
    while_busy, Crew, Edition, End, Heap, Mutator, Refusal, Shape, Value, FROM_SPACE,
};

const THREADS: u64 = 4;
const NODES: u64 = 20_000; // every second one is in the list
const LIVE: u64 = NODES / 2;
const MADE: u64 = 60;

fn header(refs: u32, data: u32) -> u64 {
    Shape { refs, weak: 0, data, tag: 7 }.header(Edition::One).expect("a shape of edition one")
}

/// Nodes of a reference and a number, of which the odd ones are a list, and an anchor for each thread. Root 0 leads to
/// the list, and root 1 + k to the anchor of mutator k.
fn first_heap() -> Heap {
    let mut words = Vec::new();
    for n in 0..NODES {
        let next = if n + 2 < NODES { FROM_SPACE + 3 * (n + 2) } else { 0 };
        words.extend([header(1, 1), next, n]);
    }
    let mut roots = vec![Value::at(3)];
    for _ in 0..THREADS {
        roots.push(Value::at(words.len() as u64));
        words.extend([header(1, 0), 0]);
    }
    Heap::by_roots(Edition::One, &words, &roots).unwrap()
}

/// Sweeps a share of the pages, adds 1 to a share of the numbers, and hangs new nodes to its anchor. Answers the sum of
/// the numbers that it saw.
fn work(own: &mut Mutator) -> Result<u64, Refusal> {
    let facts = own.facts();
    let me = u64::from(facts.number);
    for page in (me..facts.compacted_pages).step_by(THREADS as usize) {
        while_busy(|| own.touch(page))?;
    }
    let (mut sum, mut number, mut at) = (0, 0, own.root(0)?);
    while let Some(node) = at.address() {
        if number % THREADS == me {
            let value = while_busy(|| own.read_data(node, 0))?;
            while_busy(|| own.write_data(node, 0, value + 1))?;
            sum += value;
        }
        number += 1;
        at = while_busy(|| own.read_ref(node, 0))?;
    }
    let mut list = Value::NULL;
    for n in 0..MADE {
        let node = while_busy(|| own.alloc(header(1, 1)))?;
        while_busy(|| own.write_data(node, 0, 1_000_000 * me + n))?;
        while_busy(|| own.write_ref(node, 0, list))?;
        list = node.into();
    }
    let anchor = own.root(1 + me)?.address().expect("an anchor");
    while_busy(|| own.write_ref(anchor, 0, list))?;
    Ok(sum)
}

/// The numbers of a list.
fn numbers(own: &mut Mutator, list: Value) -> Vec<u64> {
    let (mut all, mut at) = (Vec::new(), list);
    while let Some(node) = at.address() {
        all.push(while_busy(|| own.read_data(node, 0)).unwrap());
        at = while_busy(|| own.read_ref(node, 0)).unwrap();
    }
    all
}

fn made_by(k: u64) -> Vec<u64> {
    (0..MADE).rev().map(|n| 1_000_000 * k + n).collect()
}

/// The crew, after each thread has worked with a mutator, and given it back under a lock.
fn after_work(mut crew: Crew) -> Crew {
    let own: Vec<Mutator> = (0..THREADS).map(|_| crew.take().unwrap()).collect();
    assert_eq!(crew.take().err(), Some(Refusal::NoMutatorLeft));
    let crew = Mutex::new(crew);
    let sum = thread::scope(|scope| {
        let start = |mut own: Mutator| {
            let crew = &crew;
            scope.spawn(move || {
                let sum = work(&mut own).unwrap();
                crew.lock().unwrap().give(own).unwrap();
                sum
            })
        };
        let threads: Vec<_> = own.into_iter().map(start).collect();
        threads.into_iter().map(|it| it.join().unwrap()).sum::<u64>()
    });
    assert_eq!(sum, LIVE * LIVE); // the odd numbers below NODES
    crew.into_inner().unwrap()
}

/// A cycle by one mutator, which sees the list with all numbers one greater, and what was made.
fn read_all(heap: Heap, anchors: &[u64]) -> End {
    let mut crew = heap.plan().unwrap().flip(1, 0).unwrap();
    let mut own = crew.take().unwrap();
    let roots = own.roots().unwrap();
    assert_eq!(roots.len(), 1 + anchors.len());
    assert_eq!(numbers(&mut own, roots[0]), (1..=LIVE).map(|n| 2 * n).collect::<Vec<_>>());
    for (&k, root) in anchors.iter().zip(&roots[1..]) {
        let list = own.read_ref(root.address().unwrap(), 0).unwrap();
        assert_eq!(numbers(&mut own, list), made_by(k));
    }
    crew.give(own).unwrap();
    crew.finish().unwrap()
}

#[test]
fn four_threads_work_while_the_heap_is_compacted_and_again() {
    let mut heap = first_heap();
    assert_eq!((heap.facts().marked, heap.facts().roots), (LIVE + THREADS, 1 + THREADS));
    let mut plan = heap.plan().unwrap();
    let (live, pages) = (plan.facts().live_words, plan.facts().pages);
    assert_eq!((live, pages), (3 * LIVE + 2 * THREADS, live.div_ceil(64)));
    let mut side = [Value::at(3), Value::at(0), Value::NULL];
    plan.forward(&mut side);
    let crew = after_work(plan.flip(THREADS as u32, 16).unwrap());

    let mut end = crew.finish().unwrap();
    let facts = end.facts();
    assert_eq!(facts.live_words, live + 3 * THREADS * MADE);
    assert_eq!((facts.mutators, facts.compacted_pages), (THREADS as u32, pages));
    let built: u64 = (0..THREADS as u32).map(|k| end.builds(k).unwrap()).sum();
    assert!(built >= pages && end.build(0, 0).is_ok());
    let dump = end.write().unwrap();
    assert_eq!(plan.audit(&dump, Audit { whole: true, words: false }), Ok(facts.live_words));
    assert_eq!(plan.explain(&dump, Audit::default()), Ok(None));
    let mut stamps: Vec<u64> = stamps(&mut end);
    stamps.sort();
    assert!(stamps.into_iter().eq(0..LIVE + THREADS * (3 * MADE + 1)));

    // The second cycle has all roots, and the third not two of the anchors.
    let roots = end.roots().unwrap();
    assert_eq!([roots[0], Value::NULL, Value::NULL], side);
    let mut end = read_all(end.next_by_roots(&roots).unwrap(), &[0, 1, 2, 3]);
    assert_eq!(end.facts().live_words, facts.live_words);
    let roots = end.roots().unwrap();
    let mut end = read_all(end.next_by_roots(&[roots[0], roots[2], roots[4]]).unwrap(), &[1, 3]);
    assert_eq!(end.facts().live_words, 3 * LIVE + 4 + 6 * MADE);
}

/// The stamps of all entries.
fn stamps(end: &mut End) -> Vec<u64> {
    let mut all = Vec::new();
    for page in 0..end.facts().pages {
        let entries = match end.page(page) {
            Ok((_, entries)) => entries,
            Err(refusal) => {
                assert_eq!(refusal, Refusal::NotBuilt { page });
                continue;
            }
        };
        for number in 0..entries {
            let entry = end.entry(page, number).unwrap();
            assert!(u64::from(entry.writer) < THREADS && entry.kind != Kind::Weak);
            all.push(entry.stamp);
        }
        let none = end.entry(page, entries);
        assert_eq!(none, Err(Refusal::NoSuchEntry { number: entries }));
    }
    all
}

#[test]
fn what_one_made_another_knows_after_they_met() {
    let mut crew = first_heap().plan().unwrap().flip(2, 2).unwrap();
    let (mut one, mut other) = (crew.take().unwrap(), crew.take().unwrap());
    let made = one.alloc(header(0, 1)).unwrap();
    one.write_data(made, 0, 9).unwrap();
    other.meet(&mut one).unwrap();
    assert_eq!(other.header(made), Ok(header(0, 1)));
    assert_eq!(other.read_data(made, 0), Ok(9));
    assert_eq!(one.facts().made_words, 2);
    let builds = one.facts().builds;
    assert!(builds > 0 && one.build(builds - 1).is_ok_and(|page| page < one.facts().pages));
}

#[test]
fn a_heap_goes_from_rest_to_a_cycle_and_back() {
    let four = Edition::Four;
    let header = Shape { refs: 1, weak: 1, data: 0, tag: 0 }.header(four).unwrap();
    let five = Value::fixnum(5).unwrap();
    let words = [0, header, Value::at(1).word(), five.word(), 0];
    let mut heap = Heap::by_roots(four, &words, &[Value::at(1), five]).unwrap();
    let image = heap.write().unwrap();
    let mut crew = Heap::read(&image).unwrap().plan().unwrap().flip(1, 1).unwrap();
    let mut own = crew.take().unwrap();
    let object = own.root(0).unwrap().address().unwrap();
    assert_eq!(own.read_ref(object, 0), Ok(object.into()));
    assert_eq!(own.read_weak(object, 0), Ok(five));
    assert_eq!(own.root(1), Ok(five));
    let made = own.alloc(header).unwrap();
    own.write_weak(made, 0, object).unwrap();
    own.write_ref(object, 0, made).unwrap();
    let (page, entries) = own.page(0).unwrap();
    assert_eq!((page[..3].to_vec(), entries), (vec![header, made.word(), five.word()], 1));
    crew.give(own).unwrap();

    let mut end = crew.finish().unwrap();
    let mut roots = [Value::NULL; 2];
    let mut at_rest = vec![1; end.facts().rest_words as usize];
    assert_eq!(end.rest(&mut at_rest, &mut roots), Ok(128));
    assert_eq!((roots, made.index()), ([Value::at(0), five], 64));
    assert_eq!(at_rest[..4], [header, Value::from(made).rested().word(), five.word(), 0]);
    assert_eq!(at_rest[64..68], [header, 0, Value::at(0).word(), 0]);
}
