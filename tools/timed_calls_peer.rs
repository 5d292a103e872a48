//! The loops of the program timed_calls, as one writes them in Rust without proofs, with the same promises: any thread
//! may call; who touches a page first builds it; a write is one entry in the journal of its page; an address that is no
//! object's start is refused. It takes the same words and prints the same lines. It has the loop of touches of
//! timed_from_c.c too.
#![allow(dead_code)] // the entries and the causes of refusals, which nothing here reads
use std::cell::UnsafeCell;
use std::hint::black_box;
use std::process::ExitCode;
use std::sync::atomic::{AtomicU64, Ordering::*};

const TO: u64 = 1 << 33;
const PAGE: usize = 64;
const FRESH: usize = 4096;
const MOST_ENTRIES: usize = 1024;
const OBJECT_WORDS: usize = 3;

/// A page's state word if nobody has built it, and once it is built and nobody holds it. Mutator k builds it with
/// 2 + 2k, and holds it with 3 + 2k.
const EMPTY: u64 = 0;
const HOME: u64 = 1;

#[derive(Clone, Copy, PartialEq)]
enum Kind { Header, Reference, Data }

struct Entry { stamp: u64, value: u64, writer: u8, kind: Kind, offset: u8 }

enum Refusal {
    Null,
    NotAStart(u64),
    NoSuchField,
    ObjectTooLarge,
    OutOfPages,
    Busy(usize),
    JournalFull(usize),
}

type Answer<T> = Result<T, Refusal>;

#[derive(Clone, Copy)]
struct Header { refs: usize, data: usize }

impl Header {
    fn of(word: u64) -> Header {
        Header { refs: (word & 0xffff) as usize, data: (word >> 16 & 0xffff) as usize }
    }

    fn word(self) -> u64 {
        self.refs as u64 | (self.data as u64) << 16
    }

    fn size(self) -> usize {
        1 + self.refs + self.data
    }
}

/// The journal is used only by the thread that holds the page.
struct Page { state: AtomicU64, journal: UnsafeCell<Vec<Entry>> }

/// The words with which the compacted pages begin; all pages and their words; a bit for each word of the compacted
/// pages, and of the fresh ones, set where an object starts; and the clock of the stamps.
struct Space {
    slid: Vec<u64>,
    pages: Box<[Page]>,
    words: Box<[[AtomicU64; PAGE]]>,
    slid_starts: Box<[u64]>,
    fresh_starts: Box<[AtomicU64]>,
    clock: AtomicU64,
    mutators: usize,
}

unsafe impl Sync for Space {}

/// `used` has the used words of each of its own fresh pages, `lows` for each size the first that may have room.
struct Mutator {
    number: usize,
    builds: Vec<u32>,
    used: Vec<u8>,
    lows: [u16; PAGE + 1],
    allocated: u64,
}

impl Space {
    fn flip(slid: Vec<u64>) -> (Space, Mutator) {
        let compacted = slid.len().div_ceil(PAGE);
        let mut slid_starts = vec![0; compacted].into_boxed_slice();
        let mut at = 0;
        while at < slid.len() {
            slid_starts[at / PAGE] |= 1 << (at % PAGE);
            at += Header::of(slid[at]).size();
        }
        let page = |_| Page { state: AtomicU64::new(EMPTY), journal: UnsafeCell::new(Vec::new()) };
        let space = Space {
            slid,
            pages: (0..compacted + FRESH).map(page).collect(),
            words: (0..compacted + FRESH).map(|_| [const { AtomicU64::new(0) }; PAGE]).collect(),
            slid_starts,
            fresh_starts: (0..FRESH).map(|_| AtomicU64::new(0)).collect(),
            clock: AtomicU64::new(0),
            mutators: 1,
        };
        let (used, lows) = (vec![0; FRESH], [0; PAGE + 1]);
        (space, Mutator { number: 0, builds: Vec::new(), used, lows, allocated: 0 })
    }

    /// Builds the page if nobody has. Ok once it is built.
    #[inline(always)]
    fn touch(&self, m: &mut Mutator, p: usize) -> Answer<()> {
        match self.pages[p].state.load(Acquire) {
            EMPTY => self.build(m, p),
            state if state & 1 == 0 => Err(Refusal::Busy(p)),
            _ => Ok(()),
        }
    }

    #[cold]
    fn build(&self, m: &mut Mutator, p: usize) -> Answer<()> {
        let state = &self.pages[p].state;
        if state.compare_exchange(EMPTY, 2 + 2 * m.number as u64, Acquire, Relaxed).is_err() {
            return Err(Refusal::Busy(p));
        }
        for (word, &slid) in self.words[p].iter().zip(self.slid.iter().skip(p * PAGE)) {
            word.store(slid, Relaxed);
        }
        m.builds.push(p as u32);
        state.store(HOME, Release);
        Ok(())
    }

    /// The header of the object that starts at this address.
    #[inline(always)]
    fn header(&self, object: u64) -> Answer<Header> {
        if object == 0 {
            return Err(Refusal::Null);
        }
        let word = object.wrapping_sub(TO) as usize;
        let (p, offset) = (word / PAGE, word % PAGE);
        let starts = if p < self.slid_starts.len() {
            self.slid_starts[p]
        } else if p < self.pages.len() {
            self.fresh_starts[p - self.slid_starts.len()].load(Acquire)
        } else {
            0
        };
        if starts >> offset & 1 == 0 {
            return Err(Refusal::NotAStart(object));
        }
        // Nobody writes a header again, so it is the same on a built page as in the row from which the page is built.
        match self.pages[p].state.load(Acquire) & 1 {
            1 => Ok(Header::of(self.words[p][offset].load(Acquire))),
            _ => Ok(Header::of(self.slid[word])),
        }
    }

    /// The position of a field's word.
    #[inline(always)]
    fn field(&self, object: u64, field: u16, kind: Kind) -> Answer<usize> {
        let header = self.header(object)?;
        let (first, count) = match kind {
            Kind::Reference => (1, header.refs),
            _ => (1 + header.refs, header.data),
        };
        if usize::from(field) >= count {
            return Err(Refusal::NoSuchField);
        }
        Ok((object - TO) as usize + first + usize::from(field))
    }

    #[inline(always)]
    fn read(&self, m: &mut Mutator, object: u64, field: u16, kind: Kind) -> Answer<u64> {
        let at = self.field(object, field, kind)?;
        self.touch(m, at / PAGE)?;
        Ok(self.words[at / PAGE][at % PAGE].load(Acquire))
    }

    #[inline(always)]
    fn write(&self, m: &mut Mutator, object: u64, field: u16, kind: Kind, value: u64) -> Answer<u64> {
        let at = self.field(object, field, kind)?;
        if kind == Kind::Reference && value != 0 && self.header(value).is_err() {
            return Err(Refusal::NotAStart(value));
        }
        self.append(m, at, kind, value)
    }

    /// Takes the page's lock, and builds the page first if nobody has.
    #[inline(always)]
    fn take(&self, m: &mut Mutator, p: usize) -> Answer<()> {
        let (state, held) = (&self.pages[p].state, 3 + 2 * m.number as u64);
        match state.compare_exchange(HOME, held, Acquire, Relaxed) {
            Ok(_) => return Ok(()),
            Err(EMPTY) => self.build(m, p)?,
            Err(_) => return Err(Refusal::Busy(p)),
        }
        match state.compare_exchange(HOME, held, Acquire, Relaxed) {
            Ok(_) => Ok(()),
            Err(_) => Err(Refusal::Busy(p)),
        }
    }

    /// Writes a word and its entry under the page's lock, and answers the entry's stamp.
    #[inline(always)]
    fn append(&self, m: &mut Mutator, at: usize, kind: Kind, value: u64) -> Answer<u64> {
        let (p, offset) = (at / PAGE, at % PAGE);
        self.take(m, p)?;
        // The page is held until its state is stored again.
        let journal = unsafe { &mut *self.pages[p].journal.get() };
        if journal.len() == MOST_ENTRIES {
            self.pages[p].state.store(HOME, Release);
            return Err(Refusal::JournalFull(p));
        }
        let stamp = self.clock.fetch_add(1, AcqRel);
        journal.push(Entry { stamp, value, writer: m.number as u8, kind, offset: offset as u8 });
        self.words[p][offset].store(value, Release);
        if kind == Kind::Header {
            self.fresh_starts[p - self.slid_starts.len()].fetch_or(1 << offset, AcqRel);
        }
        self.pages[p].state.store(HOME, Release);
        Ok(stamp)
    }

    #[inline(always)]
    fn alloc(&self, m: &mut Mutator, refs: u16, data: u16) -> Answer<u64> {
        let header = Header { refs: refs.into(), data: data.into() };
        let size = header.size();
        if size > PAGE {
            return Err(Refusal::ObjectTooLarge);
        }
        let has_room = |&own: &usize| usize::from(m.used[own]) + size <= PAGE;
        let own = (m.lows[size].into()..m.used.len()).find(has_room).ok_or(Refusal::OutOfPages)?;
        m.lows[size] = own as u16;
        let p = self.slid_starts.len() + m.number + own * self.mutators;
        let at = p * PAGE + usize::from(m.used[own]);
        self.append(m, at, Kind::Header, header.word())?;
        m.used[own] += size as u8;
        m.allocated += size as u64;
        Ok(TO + at as u64)
    }
}

/// The most calls on a heap, the heap's objects, the step from one to the next, and the number of heaps.
#[derive(Clone, Copy)]
struct Asked(u64, usize, usize, u64);

impl Asked {
    fn by(words: &[String]) -> Option<Asked> {
        let number = |at: usize| Some(u64::from(words.get(at)?.parse::<u32>().ok()?));
        let asked = Asked(number(0)?, number(1)? as usize, number(2)? as usize, number(3)?);
        (asked.1 * OBJECT_WORDS <= 1 << 20 && asked.2 < asked.1).then_some(asked)
    }

    fn further(self, k: usize) -> usize {
        if k + self.2 < self.1 { k + self.2 } else { k + self.2 - self.1 }
    }
}

/// Makes the calls of a loop, until one is refused. Adds them and their answers up in `done`.
fn make_calls(space: &Space, m: &mut Mutator, asked: Asked, name: &str, done: &mut [u64; 3]) -> Answer<()> {
    let mut add = |answer: u64| (done[0], done[1]) = (done[0] + 1, done[1].wrapping_add(answer));
    let (mut object, mut k) = (TO, 0);
    match name {
        "read" => {
            for _ in 0..asked.0 {
                object = space.read(m, object, 0, Kind::Reference)?;
                add(object);
            }
        }
        "write" => {
            for value in 0..asked.0 {
                add(space.write(m, TO + (k * OBJECT_WORDS) as u64, 0, Kind::Data, value)?);
                k = asked.further(k);
            }
        }
        "alloc" => (0..asked.0).try_for_each(|_| Ok(add(space.alloc(m, 1, 1)?)))?,
        "touch" => {
            for _ in 0..asked.0 {
                space.touch(m, k * OBJECT_WORDS / PAGE)?;
                add(0);
                k = asked.further(k);
            }
        }
        _ => (),
    }
    Ok(())
}

/// The loop on one heap, whose pages are all built first.
fn run_once(asked: Asked, name: &str, done: &mut [u64; 3]) {
    let target = |k| TO + (asked.further(k) * OBJECT_WORDS) as u64;
    let header = Header { refs: 1, data: 1 }.word();
    let (space, mut m) = Space::flip((0..asked.1).flat_map(|k| [header, target(k), k as u64]).collect());
    let _ = (0..space.pages.len()).all(|p| space.touch(&mut m, p).is_ok());
    let _ = make_calls(&space, &mut m, asked, name, done);
    done[2] += m.allocated;
    black_box(&space);
}

fn main() -> ExitCode {
    let words: Vec<String> = std::env::args().skip(1).collect();
    let Some(asked) = Asked::by(&words) else {
        eprintln!("timed_calls_peer: wants CALLS OBJECTS STEP HEAPS LOOP...");
        return ExitCode::from(2);
    };
    for name in &words[4..] {
        let mut done = [0; 3];
        (0..asked.3).for_each(|_| run_once(asked, name, &mut done));
        println!("{name} calls {} sum {} words {}", done[0], done[1], done[2]);
    }
    ExitCode::SUCCESS
}
