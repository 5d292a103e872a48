//! The collections of the program timed_collection, as one writes them in Rust without proofs: the same heaps, the same
//! algorithm, and the same promises. It looks only at live objects, and refuses a root, a reference or a weak word that
//! leads nowhere, and a live object that ends past the words or overlaps another one. It takes the same words and
//! prints the same lines. Several threads mark by another algorithm, that of timed_collection_threads.rs.
#![allow(dead_code)] // the causes of refusals, which nothing here reads
mod timed_collection_heaps;
mod timed_collection_threads;

use std::process::ExitCode;
use std::thread;
use timed_collection_heaps::{made, Asked};
use timed_collection_threads::mark_by_threads;

const FROM: u64 = 1 << 32;
const MOST_WORDS: usize = 1 << 31;
const MOST_ROOTS: usize = 1 << 20;
const WORKERS: usize = 4;
// How many places ahead in the queue an object is looked at, unless it lies within so many words.
const AHEAD: usize = 8;
const NEAR: usize = 512;

enum Fault {
    TooLarge,
    BadRoot(usize),
    BadReference(usize),
    BadWeak(usize),
    ObjectTooLong(usize),
    ObjectPastEnd(usize),
    Overlap(usize),
    NoRoom(usize),
}

/// How many references and weak words an object has, and how many words.
#[derive(Clone, Copy)]
struct Shape { refs: usize, weak: usize, size: usize }

impl Shape {
    fn new(refs: u64, weak: u64, data: u64) -> Shape {
        Shape { refs: refs as usize, weak: weak as usize, size: (1 + refs + weak + data) as usize }
    }

    #[inline]
    fn of(header: u64) -> Shape {
        if header >> 62 == 0 {
            return Shape::new(header & 0xffff, header >> 32 & 0xffff, header >> 16 & 0xffff);
        }
        Shape::of_long(header)
    }

    #[cold]
    fn of_long(header: u64) -> Shape {
        let (many, few) = (header & 0x7fff_ffff, header >> 31 & 0x1_ffff);
        match header >> 62 {
            1 => Shape::new(many, 0, few),
            2 => Shape::new(few, 0, many),
            _ => Shape::new(0, many, few),
        }
    }
}

#[inline]
fn is_set(bits: &[u64], i: usize) -> bool {
    bits[i / 64] >> (i % 64) & 1 == 1
}

/// Sets the bits of a run. Answers whether all were clear.
#[inline]
fn take_run(bits: &mut [u64], start: usize, size: usize) -> bool {
    let (mut next, end) = (start, start + size);
    while next < end {
        let stop = end.min(next - next % 64 + 64);
        let wanted = u64::MAX << (next % 64) & u64::MAX >> (64 - (next % 64 + (stop - next)));
        let block = &mut bits[next / 64];
        if *block & wanted != 0 {
            return false;
        }
        *block |= wanted;
        next = stop;
    }
    true
}

/// The index to which a word leads; `None` if it is null.
#[inline]
fn target(word: u64, count: usize) -> Result<Option<usize>, ()> {
    let i = word.wrapping_sub(FROM);
    if i < count as u64 {
        Ok(Some(i as usize))
    } else if word == 0 {
        Ok(None)
    } else {
        Err(())
    }
}

/// Puts the objects to which these words lead at the end of the queue, unless they were met. Err with the number of a
/// word that leads nowhere.
#[inline]
fn meet(heads: &mut [u64], queue: &mut Vec<u32>, words: &[u64], count: usize) -> Result<(), usize> {
    for (k, &word) in words.iter().enumerate() {
        let Some(i) = target(word, count).map_err(|()| k)? else { continue };
        let (head, bit) = (&mut heads[i / 64], 1 << (i % 64));
        if *head & bit == 0 {
            *head |= bit;
            queue.push(i as u32);
        }
    }
    Ok(())
}

/// Sets the bits of what the roots reach: breadth first, with the queue, which is empty, beside the heap.
fn mark(
    words: &[u64],
    roots: &[u64],
    heads: &mut [u64],
    bits: &mut [u64],
    queue: &mut Vec<u32>,
) -> Result<(), Fault> {
    meet(heads, queue, roots, words.len()).map_err(Fault::BadRoot)?;
    let mut next = 0;
    while next < queue.len() {
        let i = queue[next] as usize;
        if let Some(&ahead) = queue.get(next + AHEAD) {
            let ahead = ahead as usize;
            if ahead.abs_diff(i) > NEAR && Shape::of(words[ahead]).size > words.len() - ahead {
                return Err(Fault::ObjectPastEnd(ahead));
            }
        }
        let shape = Shape::of(words[i]);
        if shape.size > MOST_WORDS {
            return Err(Fault::ObjectTooLong(i));
        }
        if shape.size > words.len() - i {
            return Err(Fault::ObjectPastEnd(i));
        }
        if !take_run(bits, i, shape.size) {
            return Err(Fault::Overlap(i));
        }
        let (references, rest) = words[i + 1..i + shape.size].split_at(shape.refs);
        meet(heads, queue, references, words.len()).map_err(|k| Fault::BadReference(i + 1 + k))?;
        let stray = rest[..shape.weak].iter().position(|&word| target(word, words.len()).is_err());
        if let Some(k) = stray {
            return Err(Fault::BadWeak(i + 1 + shape.refs + k));
        }
        next += 1;
    }
    Ok(())
}

/// How many bits are set before each block, and last of all.
fn put_offsets(bits: &[u64], counts: &mut Vec<u32>) {
    let mut total = 0;
    counts.clear();
    counts.extend(bits.iter().map(|block| {
        let before = total;
        total += block.count_ones();
        before
    }));
    counts.push(total);
}

/// The tables of a survey, which one collection after the other uses.
#[derive(Default)]
struct Tables { heads: Vec<u64>, bits: Vec<u64>, counts: Vec<u32>, queue: Vec<u32> }

impl Tables {
    fn reserve(words: usize) -> Tables {
        let blocks = words.div_ceil(64);
        let (heads, bits) = (Vec::with_capacity(blocks), Vec::with_capacity(blocks));
        Tables { heads, bits, counts: Vec::with_capacity(blocks + 1), queue: Vec::with_capacity(words) }
    }

    /// Finds what the roots reach.
    fn fill(&mut self, words: &[u64], roots: &[u64]) -> Result<(), Fault> {
        let blocks = words.len().div_ceil(64);
        for bits in [&mut self.heads, &mut self.bits] {
            bits.clear();
            bits.resize(blocks, 0);
        }
        self.queue.clear();
        mark(words, roots, &mut self.heads, &mut self.bits, &mut self.queue)?;
        put_offsets(&self.bits, &mut self.counts);
        Ok(())
    }
}

/// What is live: a bit for the first word of each object, a bit for each word, and how many words are live below each
/// block of bits.
struct Survey<'w> { words: &'w [u64], heads: Vec<u64>, bits: Vec<u64>, counts: Vec<u32> }

impl<'w> Survey<'w> {
    fn of(words: &'w [u64], roots: &[u64]) -> Result<Survey<'w>, Fault> {
        if words.len() > MOST_WORDS || roots.len() > MOST_ROOTS {
            return Err(Fault::TooLarge);
        }
        let blocks = words.len().div_ceil(64);
        let (mut heads, mut bits) = (vec![0; blocks], vec![0; blocks]);
        mark(words, roots, &mut heads, &mut bits, &mut Vec::new())?;
        let mut counts = Vec::with_capacity(blocks + 1);
        put_offsets(&bits, &mut counts);
        Ok(Survey { words, heads, bits, counts })
    }

    /// The same by so many threads. Where they meet a fault one thread looks for it.
    fn of_by_threads(words: &'w [u64], roots: &[u64], workers: usize) -> Result<Survey<'w>, Fault> {
        let blocks = words.len().div_ceil(64);
        let (mut heads, mut bits) = (vec![0; blocks], vec![0; blocks]);
        let sizes = words.len() <= MOST_WORDS && roots.len() <= MOST_ROOTS;
        if !sizes || !mark_by_threads(words, roots, &mut heads, &mut bits, workers) {
            return Survey::of(words, roots);
        }
        let mut counts = Vec::with_capacity(blocks + 1);
        put_offsets(&bits, &mut counts);
        Ok(Survey { words, heads, bits, counts })
    }

    fn live_words(&self) -> usize {
        self.counts[self.bits.len()] as usize
    }

    /// How many live words are below word `i`.
    #[inline]
    fn below(&self, i: usize) -> usize {
        let low = self.bits[i / 64] & ((1 << (i % 64)) - 1);
        (self.counts[i / 64] + low.count_ones()) as usize
    }

    /// Where a reference of a live object leads afterwards. Null is looked up too, so that the choice needs no branch.
    #[inline]
    fn settled(&self, reference: u64) -> u64 {
        let at = FROM + self.below(reference.saturating_sub(FROM) as usize) as u64;
        if reference == 0 { 0 } else { at }
    }

    /// Where a root or a weak word leads afterwards: nowhere, if not to a live object.
    #[inline]
    fn settled_weak(&self, word: u64) -> u64 {
        let i = word.wrapping_sub(FROM);
        if i < 64 * self.heads.len() as u64 && is_set(&self.heads, i as usize) { self.settled(word) } else { 0 }
    }

    /// The first head from word `i` on.
    #[inline]
    fn next_head(&self, i: usize) -> usize {
        let rest = self.heads[i / 64] >> (i % 64);
        if rest != 0 {
            return i + rest.trailing_zeros() as usize;
        }
        let later = self.heads.iter().enumerate().skip(i / 64 + 1).find(|(_, block)| **block != 0);
        later.map_or(64 * self.heads.len(), |(b, block)| 64 * b + block.trailing_zeros() as usize)
    }

    /// The object in which the slid word `first` is.
    fn head_of(&self, first: usize) -> usize {
        let block = self.counts.partition_point(|&count| count as usize <= first) - 1;
        let mut i = 64 * block + 63;
        while !(is_set(&self.heads, i) && self.below(i) <= first) {
            i = if self.heads[i / 64] == 0 { i - i % 64 - 1 } else { i - 1 };
        }
        i
    }

    /// Fills the part with the slid words from `first` on. Compiled into a caller with `first` 0 it is shorter.
    #[inline(always)]
    fn slide(&self, first: usize, part: &mut [u64]) {
        if part.is_empty() {
            return;
        }
        let end = first + part.len();
        let mut next = self.head_of(first);
        let mut place = self.below(next);
        while place < end {
            let start = self.next_head(next);
            let shape = Shape::of(self.words[start]);
            let (from, stop) = (first.saturating_sub(place), shape.size.min(end - place));
            self.slide_object(start, shape, from, &mut part[place + from - first..place + stop - first]);
            place += shape.size;
            next = start + shape.size;
        }
    }

    /// Fills `to` with the words of an object from its word `from` on.
    #[inline]
    fn slide_object(&self, start: usize, shape: Shape, from: usize, to: &mut [u64]) {
        let end = from + to.len();
        let words = &self.words[start..start + end];
        let mut at = from;
        if at == 0 {
            to[0] = words[0];
            at = 1;
        }
        let stop = end.min(1 + shape.refs);
        while at < stop {
            to[at - from] = self.settled(words[at]);
            at += 1;
        }
        let stop = end.min(1 + shape.refs + shape.weak);
        while at < stop {
            to[at - from] = self.settled_weak(words[at]);
            at += 1;
        }
        if at < end {
            to[at - from..].copy_from_slice(&words[at..]);
        }
    }
}

/// Slides what the roots reach to the beginning of `to`, and makes the roots lead there. Answers how many words are
/// live.
fn collect(words: &[u64], roots: &mut [u64], to: &mut [u64]) -> Result<usize, Fault> {
    let survey = Survey::of(words, roots)?;
    let live = survey.live_words();
    survey.slide(0, to.get_mut(..live).ok_or(Fault::NoRoom(live))?);
    roots.iter_mut().for_each(|root| *root = survey.settled_weak(*root));
    Ok(live)
}

/// The same by tables that were made before.
fn collect_lent(tables: &mut Tables, words: &[u64], roots: &mut [u64], to: &mut [u64]) -> Result<usize, Fault> {
    if words.len() > MOST_WORDS || roots.len() > MOST_ROOTS {
        return Err(Fault::TooLarge);
    }
    tables.fill(words, roots)?;
    let Tables { heads, bits, counts, queue } = std::mem::take(tables);
    let survey = Survey { words, heads, bits, counts };
    let live = survey.live_words();
    let part = to.get_mut(..live);
    let answer = if let Some(part) = part {
        survey.slide(0, part);
        roots.iter_mut().for_each(|root| *root = survey.settled_weak(*root));
        Ok(live)
    } else {
        Err(Fault::NoRoom(live))
    };
    *tables = Tables { heads: survey.heads, bits: survey.bits, counts: survey.counts, queue };
    answer
}

/// The same within the words: no object moves up.
fn collect_in_place(words: &mut [u64], roots: &mut [u64]) -> Result<usize, Fault> {
    let Survey { heads, bits, counts, .. } = Survey::of(words, roots)?;
    let survey = Survey { words: &[], heads, bits, counts };
    let live = survey.live_words();
    let (mut next, mut place) = (0, 0);
    while place < live {
        let start = survey.next_head(next);
        let shape = Shape::of(words[start]);
        let (weak, data) = (1 + shape.refs, 1 + shape.refs + shape.weak);
        words[place] = words[start];
        for k in 1..weak {
            words[place + k] = survey.settled(words[start + k]);
        }
        for k in weak..data {
            words[place + k] = survey.settled_weak(words[start + k]);
        }
        if place < start {
            words.copy_within(start + data..start + shape.size, place + data);
        }
        place += shape.size;
        next = start + shape.size;
    }
    roots.iter_mut().for_each(|root| *root = survey.settled_weak(*root));
    Ok(live)
}

/// The same, with the slide in threads, each of a part of `to`.
fn collect_by_threads(words: &[u64], roots: &mut [u64], to: &mut [u64]) -> Result<usize, Fault> {
    let survey = Survey::of(words, roots)?;
    let live = survey.live_words();
    let (to, size) = (to.get_mut(..live).ok_or(Fault::NoRoom(live))?, live / WORKERS + 1);
    thread::scope(|scope| {
        for (k, part) in to.chunks_mut(size).enumerate() {
            let survey = &survey;
            scope.spawn(move || survey.slide(k * size, part));
        }
    });
    roots.iter_mut().for_each(|root| *root = survey.settled_weak(*root));
    Ok(live)
}

fn sum(begun: u64, words: &[u64]) -> u64 {
    words.iter().fold(begun, |sum, &word| sum.wrapping_mul(31).wrapping_add(word))
}

/// The number of live words that the last round of a mode left, and where the root leads.
fn run(asked: Asked, mode: &str, words: &[u64], root: u64, to: &mut [u64]) -> Result<(usize, u64), Fault> {
    let mut left = (0, root);
    let survey = if mode == "3" { Some(Survey::of(words, &[root])?) } else { None };
    let mut tables = if mode == "6" { Tables::reserve(words.len()) } else { Tables::default() };
    for _ in 0..asked.rounds {
        let mut roots = [root];
        match (mode, &survey) {
            ("1", _) => left.0 = Survey::of(words, &[])?.live_words(),
            ("2", _) => left.0 = Survey::of(words, &roots)?.live_words(),
            ("3", Some(survey)) => {
                let live = survey.live_words();
                survey.slide(0, &mut to[..live]);
                left = (live, survey.settled_weak(root));
            }
            ("4", _) => left = (collect(words, &mut roots, to)?, roots[0]),
            ("5", _) => {
                to.copy_from_slice(words);
                left = (collect_in_place(to, &mut roots)?, roots[0]);
            }
            ("6", _) => left = (collect_lent(&mut tables, words, &mut roots, to)?, roots[0]),
            ("8", _) => to.copy_from_slice(words),
            ("9", _) => left.0 = Survey::of_by_threads(words, &roots, 1)?.live_words(),
            ("10", _) => left.0 = Survey::of_by_threads(words, &roots, 2)?.live_words(),
            ("11", _) => left.0 = Survey::of_by_threads(words, &roots, 4)?.live_words(),
            ("7", _) => left = (collect_by_threads(words, &mut roots, to)?, roots[0]),
            _ => (),
        }
    }
    Ok(left)
}

fn main() -> ExitCode {
    let words: Vec<String> = std::env::args().skip(1).collect();
    let Some(asked) = Asked::by(&words) else {
        eprintln!("timed_collection_peer: wants WORDS REFS DATA LIVE SHAPE ROUNDS MODE...");
        return ExitCode::from(2);
    };
    for mode in &words[6..] {
        let (words, root) = made(asked);
        let mut to = vec![1; asked.words];
        let Ok((live, root)) = run(asked, mode, &words, root, &mut to) else { return ExitCode::from(1) };
        println!("{mode} live {live} root {root} sum {}", sum(sum(0, &words), &to));
    }
    ExitCode::SUCCESS
}
