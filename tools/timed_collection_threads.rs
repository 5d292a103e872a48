//! Marking by several threads, as one writes it in Rust without proofs: bits in atomic words, a stack for each thread,
//! and a pool to which a thread gives half of its stack while others have none.
use crate::{target, Shape};
use std::arch::x86_64::{_mm_prefetch, _MM_HINT_T0};
use std::sync::atomic::{AtomicBool, AtomicU64, AtomicUsize, Ordering::Relaxed};
use std::sync::{Condvar, Mutex};
use std::thread;

// How many references of an object are followed at once: an item is the index of an object, and above bit 32 the number
// of the part of its references.
const PART: usize = 1024;
// How many items a thread has before it gives away half.
const FEW: usize = 64;
// How many objects a thread has asked the memory for.
const ASKED: usize = 8;

/// What waits for a thread, how many threads wait, and whether none has anything left, or one met a fault.
#[derive(Default)]
struct Pool { batches: Vec<Vec<u64>>, waiting: usize, done: bool }

struct Marker<'a> {
    words: &'a [u64],
    heads: &'a [AtomicU64],
    bits: &'a [AtomicU64],
    workers: usize,
    pool: Mutex<Pool>,
    wake: Condvar,
    // how many threads wait for which there is no batch
    hungry: AtomicUsize,
    failed: AtomicBool,
}

fn atomics(bits: &mut [u64]) -> &[AtomicU64] {
    // Both have the same size and alignment, and nobody else has these words.
    unsafe { &*(bits as *mut [u64] as *const [AtomicU64]) }
}

impl Marker<'_> {
    /// Puts what a word leads to on the stack, unless it was met. Answers whether it leads somewhere.
    #[inline(always)]
    fn meet(&self, word: u64, stack: &mut Vec<u64>) -> bool {
        let Ok(led) = target(word, self.words.len()) else { return false };
        if let Some(i) = led {
            let (head, bit) = (&self.heads[i / 64], 1 << (i % 64));
            if head.load(Relaxed) & bit == 0 && head.fetch_or(bit, Relaxed) & bit == 0 {
                stack.push(i as u64);
            }
        }
        true
    }

    /// Sets the bits of a run. Answers whether all were clear.
    #[inline]
    fn take_run(&self, start: usize, size: usize) -> bool {
        let (mut next, end) = (start, start + size);
        while next < end {
            let stop = end.min(next - next % 64 + 64);
            let wanted = u64::MAX << (next % 64) & u64::MAX >> (64 - (next % 64 + (stop - next)));
            if self.bits[next / 64].fetch_or(wanted, Relaxed) & wanted != 0 {
                return false;
            }
            next = stop;
        }
        true
    }

    /// Follows a part of an object's references; the first part takes its words too. Answers false at a fault.
    #[inline]
    fn follow(&self, item: u64, stack: &mut Vec<u64>) -> bool {
        let (i, part) = ((item & 0xffff_ffff) as usize, (item >> 32) as usize);
        let shape = Shape::of(self.words[i]);
        if part == 0 {
            if shape.size > self.words.len() - i || !self.take_run(i, shape.size) {
                return false;
            }
            let weak = &self.words[i + 1 + shape.refs..i + 1 + shape.refs + shape.weak];
            if weak.iter().any(|&word| target(word, self.words.len()).is_err()) {
                return false;
            }
            stack.extend((1..shape.refs.div_ceil(PART)).rev().map(|part| i as u64 | (part as u64) << 32));
        }
        let (first, end) = (part * PART, shape.refs.min((part + 1) * PART));
        self.words[i + 1 + first..i + 1 + end].iter().all(|&word| self.meet(word, stack))
    }

    fn count_hungry(&self, pool: &Pool) {
        self.hungry.store(pool.waiting.saturating_sub(pool.batches.len()), Relaxed);
    }

    /// Gives the older half of a stack away: its items are likely to lead far.
    #[cold]
    fn give(&self, stack: &mut Vec<u64>) {
        let rest = stack.split_off(stack.len() / 2);
        let mut pool = self.pool.lock().unwrap();
        pool.batches.push(std::mem::replace(stack, rest));
        self.count_hungry(&pool);
        self.wake.notify_one();
    }

    /// Waits for a batch; `None` if there will be none.
    #[cold]
    fn take(&self) -> Option<Vec<u64>> {
        let mut pool = self.pool.lock().unwrap();
        pool.waiting += 1;
        while pool.batches.is_empty() && !pool.done && pool.waiting < self.workers {
            self.count_hungry(&pool);
            pool = self.wake.wait(pool).unwrap();
        }
        if pool.done || pool.batches.is_empty() {
            pool.done = true;
            self.wake.notify_all();
            return None;
        }
        pool.waiting -= 1;
        let batch = pool.batches.pop();
        self.count_hungry(&pool);
        batch
    }

    #[cold]
    fn fail(&self) {
        self.failed.store(true, Relaxed);
        self.pool.lock().unwrap().done = true;
        self.wake.notify_all();
    }

    /// Follows what is on the stack, and then what others give, until nobody has anything left.
    fn work(&self, mut stack: Vec<u64>) {
        let (mut asked, mut first, mut count) = ([0; ASKED], 0, 0);
        loop {
            while count < ASKED {
                let Some(item) = stack.pop() else { break };
                let ahead = &self.words[(item & 0xffff_ffff) as usize] as *const u64;
                // A prefetch of any address is allowed.
                unsafe { _mm_prefetch(ahead as *const i8, _MM_HINT_T0) };
                asked[(first + count) % ASKED] = item;
                count += 1;
            }
            if count == 0 {
                let Some(batch) = self.take() else { return };
                stack = batch;
                continue;
            }
            let item = asked[first];
            (first, count) = ((first + 1) % ASKED, count - 1);
            if !self.follow(item, &mut stack) {
                return self.fail();
            }
            if stack.len() >= FEW && self.hungry.load(Relaxed) > 0 {
                self.give(&mut stack);
            }
        }
    }
}

/// Sets the bits of what the roots reach. Answers false at a fault.
pub fn mark_by_threads(words: &[u64], roots: &[u64], heads: &mut [u64], bits: &mut [u64], workers: usize) -> bool {
    let (heads, bits, pool) = (atomics(heads), atomics(bits), Mutex::default());
    let (hungry, failed) = (AtomicUsize::new(0), AtomicBool::new(false));
    let marker = Marker { words, heads, bits, workers, pool, wake: Condvar::new(), hungry, failed };
    let mut stack = Vec::new();
    if !roots.iter().all(|&root| marker.meet(root, &mut stack)) {
        return false;
    }
    thread::scope(|scope| {
        (1..workers).for_each(|_| drop(scope.spawn(|| marker.work(Vec::new()))));
        marker.work(stack);
    });
    !marker.failed.into_inner()
}
