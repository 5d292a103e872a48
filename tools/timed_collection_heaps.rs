//! The heaps of the program timed_collection, made here in the same way.
use crate::{FROM, MOST_WORDS};

// How many references an array has, where there are many arrays.
const SLOTS: u64 = 500;

/// The words of the heap, the references and data words of each object, how many objects of a hundred are live in the
/// shapes 0 and 1, the shape, and the rounds.
#[derive(Clone, Copy)]
pub struct Asked { pub words: usize, refs: u64, data: u64, live: u64, shape: u32, pub rounds: usize }

impl Asked {
    pub fn by(words: &[String]) -> Option<Asked> {
        let number = |at: usize| words.get(at)?.parse::<u32>().ok();
        let fields = |at: usize| Some(u64::from(words.get(at)?.parse::<u16>().ok()?));
        let (count, live, rounds) = (number(0)? as usize, number(3)?.into(), number(5)? as usize);
        let asked = Asked { words: count, refs: fields(1)?, data: fields(2)?, live, shape: number(4)?, rounds };
        (count <= MOST_WORDS && asked.shape <= 7).then_some(asked)
    }

    fn size(self) -> u64 {
        1 + self.refs + self.data
    }
}

fn drawn(k: u64) -> u64 {
    let x = k.wrapping_add(0x9e37_79b9_7f4a_7c15);
    let x = (x ^ (x >> 30)).wrapping_mul(0xbf58_476d_1ce4_e5b9);
    let x = (x ^ (x >> 27)).wrapping_mul(0x94d0_49bb_1331_11eb);
    x ^ (x >> 31)
}

/// The words of the heap, and its root.
pub fn made(asked: Asked) -> (Vec<u64>, u64) {
    if asked.shape < 2 { made_of_live(asked) } else { (made_of_all(asked), FROM) }
}

/// The live objects are a binary tree in the order in which they lie, or in which they are drawn.
fn made_of_live(asked: Asked) -> (Vec<u64>, u64) {
    let size = asked.size();
    let objects = asked.words as u64 / size;
    let mut order: Vec<u64> = (0..objects).filter(|&k| drawn(k) % 100 < asked.live).collect();
    let count = order.len() as u64;
    for j in 0..if asked.shape == 1 { 0 } else { count } {
        order.swap(j as usize, (j + (drawn(j) >> 33) % (count - j)) as usize);
    }
    let mut words = Vec::with_capacity(asked.words);
    for k in 0..objects {
        words.push(asked.refs | asked.data << 16 | 7 << 48);
        words.extend((0..asked.refs).map(|r| FROM + (drawn(k * 7 + r) >> 33) % objects * size));
        words.extend((0..asked.data).map(|d| k + d));
    }
    words.resize(asked.words, 0);
    let address = |place: u64| order.get(place as usize).map_or(0, |&k| FROM + k * size);
    for (j, &k) in (0..).zip(&order) {
        for r in 0..asked.refs {
            let place = if r < 2 { 2 * j + 1 + r } else { (drawn(j * 5 + r) >> 33) % count };
            words[(k * size + 1 + r) as usize] = address(place);
        }
    }
    let root = address(0);
    (words, root)
}

/// Some arrays of references, and behind them objects: 2, a binary tree, each subtree behind its parent; 3, a graph; 4,
/// an array of chains; 5, a binary tree of arrays; 6, a list; 7, an array.
fn made_of_all(asked: Asked) -> Vec<u64> {
    let (size, count) = (asked.size(), asked.words as u64);
    let (arrays, slots, objects) = match asked.shape {
        4 | 7 => (1, count.saturating_sub(1) / (size + 1), count.saturating_sub(1) / (size + 1)),
        5 => (count / ((size + 1) * SLOTS + 1), SLOTS, count / ((size + 1) * SLOTS + 1) * SLOTS),
        _ => (0, 0, count / size),
    };
    let array_at = |k: u64| k * (slots + 1);
    let at = |k: u64| arrays * (slots + 1) + k * size;
    let object = |k: u64| if k < objects { FROM + at(k) } else { 0 };
    let mut words = vec![0; asked.words];
    for k in 0..arrays {
        words[array_at(k) as usize] = if slots < 1 << 16 { slots | 7 << 48 } else { slots | 7 << 48 | 1 << 62 };
    }
    for k in 0..objects {
        words[at(k) as usize] = asked.refs | asked.data << 16 | 7 << 48;
    }
    let mut counts = vec![0; if asked.shape == 2 { objects as usize } else { 0 }];
    counts.iter_mut().take(1).for_each(|first| *first = objects);
    for k in 0..objects {
        let first = at(k) as usize + 1;
        match asked.shape {
            2 => {
                let below = counts[k as usize] - 1;
                let left = below.div_ceil(2);
                for (r, target, count) in [(0, k + 1, left), (1, k + 1 + left, below - left)] {
                    if count > 0 {
                        words[first + r] = object(target);
                        counts[target as usize] = count;
                    }
                }
            }
            3 => (0..asked.refs).for_each(|r| {
                words[first + r as usize] = object((drawn(k * 7 + r) >> 33) % objects);
            }),
            4 => {
                let slot = 1 + ((drawn(k) >> 33) % slots) as usize;
                words[first] = words[slot];
                words[slot] = object(k);
            }
            6 => words[first] = object(k + 1),
            _ => (),
        }
    }
    for k in 0..if asked.shape == 4 { 0 } else { arrays } {
        for s in 0..slots {
            let below = 2 * k + s + 1;
            let is_array = s < 2 && below < arrays;
            let target = if is_array { FROM + array_at(below) } else { object(k * slots + s) };
            words[(array_at(k) + 1 + s) as usize] = target;
        }
    }
    words
}
