//! Young collections: what is old stays where it is, and what is young slides down to it.

use compressor::rest::{Buffer, Cards, OldTables, Pins, Space, CARD};
use compressor::{Edition, Refusal, Shape, Value};

const FOUR: Edition = Edition::Four;
const ROOM: usize = 4096;

fn number(n: i64) -> Value {
    Value::fixnum(n).expect("a small number")
}

fn header(refs: u32, weak: u32) -> u64 {
    Shape { refs, weak, data: 0, tag: 3 }.header(FOUR).expect("a shape of edition four")
}

/// A space, its tables and cards, and where it allocates.
struct Heap {
    space: Space<'static>,
    old: OldTables,
    cards: Cards,
    buffer: Buffer,
}

impl Heap {
    fn new() -> Heap {
        Heap {
            space: Space::new(FOUR, vec![0; ROOM].into(), 0),
            old: OldTables::reserve(ROOM as u64).unwrap(),
            cards: Cards::new(ROOM as u64),
            buffer: Buffer::default(),
        }
    }

    fn made(&mut self, refs: u32, weak: u32) -> Value {
        self.space.alloc(&mut self.buffer, header(refs, weak)).expect("room")
    }

    fn pair(&mut self, first: Value, rest: Value) -> Value {
        let made = self.made(2, 0);
        self.space.store(made, 0, first);
        self.space.store(made, 1, rest);
        made
    }

    fn store(&self, object: Value, k: u64, value: Value) {
        self.space.store_card(&self.cards, object, k, value);
    }

    fn collect_all(&mut self, roots: &mut [Value]) -> Result<u64, Refusal> {
        let left = self.space.collect_all(&mut self.old, roots)?;
        self.cards.clean();
        Ok(left)
    }

    fn collect_young(&mut self, roots: &mut [Value]) -> Result<u64, Refusal> {
        self.check()?;
        self.space.collect_young(&mut self.old, &mut self.cards, roots)
    }

    fn collect_aging(&mut self, roots: &mut [Value]) -> Result<u64, Refusal> {
        self.check()?;
        self.space.collect_aging(&mut self.old, &mut self.cards, roots)
    }

    fn check(&mut self) -> Result<(), Refusal> {
        self.space.check_old(&mut self.old, &mut self.cards)
    }

    fn numbers(&self, list: Value) -> Vec<i64> {
        let (mut all, mut at) = (Vec::new(), list);
        while at.is_reference() {
            all.push(self.space.load(at, 0).as_fixnum().expect("a number"));
            at = self.space.load(at, 1);
        }
        all
    }
}

#[test]
fn young_objects_move_and_old_ones_stay() {
    let mut heap = Heap::new();
    assert_eq!(heap.old.watermark(), 0);
    let dead = heap.pair(number(0), Value::NULL);
    let first = heap.pair(number(1), Value::NULL);
    let mut roots = [first, heap.pair(number(2), first)];
    assert_eq!(heap.collect_all(&mut roots), Ok(6));
    assert_eq!((roots, heap.old.watermark()), ([Value::at(0), Value::at(3)], 6));

    // An old object that dies stays, and holds what was stored into it.
    roots[1] = dead;
    let _ = heap.pair(number(7), Value::NULL);
    let young = heap.pair(number(3), Value::at(0));
    heap.store(Value::at(3), 1, young);
    roots[1] = heap.pair(number(4), Value::NULL);
    assert!(heap.cards.is_dirty(5) && heap.cards.dirty(6) == 1);
    assert_eq!(heap.collect_young(&mut roots), Ok(12));
    assert_eq!((roots, heap.old.watermark()), ([Value::at(0), Value::at(9)], 12));
    assert_eq!(heap.numbers(Value::at(3)), [2, 3, 1]);
    assert_eq!(heap.numbers(roots[1]), [4]);
    assert!(!heap.cards.is_dirty(5) && heap.space.used() == 12);

    // A collection of all finds that nothing reaches it.
    assert_eq!(heap.collect_all(&mut roots), Ok(6));
    assert_eq!((heap.numbers(roots[0]), heap.numbers(roots[1])), (vec![1], vec![4]));
    assert_eq!(heap.collect_young(&mut []), Ok(6));
    assert_eq!(heap.collect_all(&mut []), Ok(0));
}

#[test]
fn a_list_serves_in_place_of_cards() {
    let mut heap = Heap::new();
    let mut roots = [heap.pair(number(1), Value::NULL)];
    assert_eq!(heap.collect_all(&mut roots), Ok(3));
    let _ = heap.pair(number(7), Value::NULL);
    let young = heap.pair(number(2), Value::NULL);
    heap.space.store(roots[0], 1, young);
    let (first, second) = (heap.space.index_of(roots[0], 0), heap.space.index_of(roots[0], 1));
    let mut fields = [second, first, second];
    let left = heap.space.collect_young_by(&mut heap.old, &mut fields, &mut roots);
    fields.sort_unstable(); // in whatever order they are
    assert_eq!((left, fields), (Ok(6), [1, 2, 2]));
    assert_eq!(heap.numbers(roots[0]), [1, 2]);
    for strange in [0, 6, 7] {
        let refused = heap.space.collect_young_by(&mut heap.old, &mut [2, strange], &mut roots);
        assert_eq!(refused, Err(Refusal::NotAField { index: strange }));
    }
    assert_eq!(heap.space.collect_young_by(&mut heap.old, &mut [], &mut roots), Ok(6));
}

#[test]
fn young_collections_go_on_around_pins() {
    let (mut heap, pins) = (Heap::new(), Pins::default());
    let mut roots = [heap.pair(number(1), Value::NULL)];
    assert_eq!(heap.collect_all(&mut roots), Ok(3));
    let _ = heap.pair(number(7), Value::NULL);
    let held = heap.pair(number(2), Value::NULL);
    heap.store(roots[0], 1, held);
    let pin = pins.pin(held);

    // In place of a young collection all becomes old where it stands.
    let used = heap.space.used();
    assert_eq!(heap.space.raise(&mut heap.old, &mut heap.cards, &mut roots), Ok(used));
    assert_eq!((heap.old.watermark(), heap.cards.dirty(used)), (used, 0));
    assert_eq!(heap.collect_young(&mut roots), Ok(used));
    assert_eq!(heap.space.load(roots[0], 1), held);
    let refused = heap.old.raise(FOUR, heap.space.words(), 3);
    assert_eq!(refused, Err(Refusal::BelowWatermark { watermark: used }));

    // All is collected around the pin, and what is left is old.
    assert_eq!(heap.space.collect_pinned(&pins, &mut roots), Ok(6));
    assert_eq!(heap.old.collect_all(FOUR, &mut [], &mut []), Ok(0));
    let refused = heap.old.raise(FOUR, heap.space.words(), 5);
    assert_eq!(refused, Err(Refusal::NotARow { index: 3 }));
    assert_eq!(heap.space.raise(&mut heap.old, &mut heap.cards, &mut roots), Ok(9));
    let young = heap.pair(number(3), Value::NULL);
    heap.store(held, 1, young);
    assert_eq!(heap.collect_young(&mut roots), Ok(12));
    assert_eq!(heap.numbers(roots[0]), [1, 2, 3]);
    assert_eq!(pin.object(), held);
}

#[test]
fn an_object_is_old_once_it_survived_two() {
    let mut heap = Heap::new();
    let mut roots = [heap.pair(number(1), Value::NULL), Value::NULL];
    assert_eq!(heap.collect_all(&mut roots), Ok(3));
    let young = heap.pair(number(2), Value::NULL);
    heap.store(roots[0], 1, young);
    assert_eq!(heap.collect_aging(&mut roots), Ok(6));
    assert_eq!(heap.old.watermark(), 3);
    assert!(heap.cards.is_dirty(2));

    // It is dropped before it is old, so that it goes; the next one stays.
    roots[1] = heap.pair(number(3), Value::NULL);
    heap.store(roots[0], 1, Value::NULL);
    assert_eq!(heap.collect_aging(&mut roots), Ok(6));
    assert_eq!((heap.old.watermark(), roots[1]), (3, Value::at(3)));
    assert_eq!(heap.collect_aging(&mut roots), Ok(6));
    assert_eq!(heap.old.watermark(), 6);
    roots[1] = Value::NULL;
    assert_eq!(heap.collect_aging(&mut roots), Ok(6));
    assert_eq!(heap.collect_all(&mut roots), Ok(3));
}

#[test]
fn a_weak_word_goes_with_a_young_object() {
    let mut heap = Heap::new();
    let mut roots = [heap.made(0, 3), Value::NULL];
    assert_eq!(heap.collect_all(&mut roots), Ok(4));
    let _ = heap.pair(number(7), Value::NULL);
    let (dead, live) = (heap.pair(number(1), Value::NULL), heap.pair(number(2), Value::NULL));
    let young = heap.made(0, 2);
    for table in [roots[0], young] {
        heap.store(table, 0, dead);
        heap.store(table, 1, live);
    }
    heap.store(roots[0], 2, number(5));
    roots = [live, young];
    assert_eq!(heap.collect_young(&mut roots), Ok(10));
    assert_eq!(roots, [Value::at(4), Value::at(7)]);
    for table in [Value::at(0), roots[1]] {
        assert_eq!(heap.space.load(table, 0), Value::NULL);
        assert_eq!(heap.space.load(table, 1), roots[0]);
    }
    assert_eq!(heap.space.load(Value::at(0), 2), number(5));
}

#[test]
fn a_check_finds_what_was_forgotten() {
    let mut heap = Heap::new();
    let mut roots = [heap.made(1, 1), heap.pair(number(1), Value::NULL)];
    assert_eq!(heap.collect_all(&mut roots), Ok(6));
    let young = heap.pair(number(2), Value::NULL);
    for (object, k) in [(roots[0], 0), (roots[0], 1), (roots[1], 1)] {
        let index = heap.space.index_of(object, k);
        heap.space.store(object, k, young);
        assert_eq!(heap.check(), Err(Refusal::LeadsAbove { index }));
        heap.cards.mark(index);
        assert_eq!(heap.check(), Ok(()));
        heap.space.store(object, k, number(7));
        heap.cards.clean();
    }
    // What leads into an old object leads to none.
    heap.space.store(roots[1], 1, Value::at(4));
    assert_eq!(heap.check(), Err(Refusal::LeadsAbove { index: 5 }));
    heap.space.store(roots[1], 1, Value::NULL);
    heap.space.set_header(roots[1], header(3, 0));
    assert_eq!(heap.check(), Err(Refusal::NotARow { index: 3 }));
    heap.space.set_header(roots[1], header(1, 0));
    assert!(matches!(heap.check(), Err(Refusal::NotARow { .. })));
    heap.space.set_header(roots[1], header(2, 0));
    assert_eq!(heap.check(), Ok(()));
}

#[test]
fn refused_collections_change_nothing() {
    let mut heap = Heap::new();
    let mut roots = [heap.pair(number(1), Value::NULL), Value::NULL];
    for _ in 0..CARD {
        roots[0] = heap.pair(number(1), roots[0]);
    }
    let old = 3 * (CARD + 1);
    assert_eq!(heap.collect_all(&mut roots), Ok(old));
    let young = heap.pair(number(2), roots[0]);
    heap.store(roots[0], 0, young);
    let used = heap.space.used() as usize;
    let before = heap.space.words().to_vec();

    // What leads into an old object, or out of the words.
    for strange in [Value::at(1), Value::at(used as u64)] {
        roots[1] = strange;
        let bad = Err(Refusal::BadRoot { number: 1 });
        assert_eq!(heap.space.collect_young(&mut heap.old, &mut heap.cards, &mut roots), bad);
        assert_eq!(heap.space.collect_young_by(&mut heap.old, &mut [], &mut roots), bad);
        assert_eq!(heap.space.collect_aging(&mut heap.old, &mut heap.cards, &mut roots), bad);
    }
    roots[1] = Value::NULL;
    heap.space.store(young, 1, Value::at(1));
    let bad = Err(Refusal::BadReference { index: old + 2 });
    assert_eq!(heap.space.collect_young(&mut heap.old, &mut heap.cards, &mut roots), bad);
    heap.space.store(young, 1, roots[0]);

    // Too few words, cards, or words of tables.
    let mut short = before[..old as usize - 1].to_vec();
    let few = Err(Refusal::FewWords { words: old });
    let (own, cards) = (&mut heap.old, &mut heap.cards);
    assert_eq!(own.collect_young(FOUR, &mut short, cards, &mut roots), few);
    assert_eq!(own.collect_young_by(FOUR, &mut short, &mut [], &mut roots), few);
    let mut none = Cards::new(old - old % CARD);
    let few = Err(Refusal::FewCards { cards: old.div_ceil(CARD) });
    assert_eq!(heap.space.collect_young(&mut heap.old, &mut none, &mut roots), few);
    assert_eq!(heap.space.collect_aging(&mut heap.old, &mut none, &mut roots), few);
    let mut small = OldTables::reserve(old).unwrap();
    let short = Err(Refusal::ShortTables { words: old });
    assert_eq!(heap.space.collect_all(&mut small, &mut roots), short);
    assert_eq!(heap.space.collect_young(&mut small, &mut heap.cards, &mut roots), short);
    let mut many = vec![Value::NULL; FOUR.max_roots() as usize + 1];
    assert_eq!(heap.space.collect_all(&mut heap.old, &mut many), Err(Refusal::TooLarge));

    assert_eq!((heap.space.words(), heap.old.watermark()), (&mut before.clone()[..], old));
    assert!(heap.cards.is_dirty(old - 2));
    assert_eq!(heap.collect_young(&mut roots), Ok(old + 3));
}

#[test]
fn a_space_that_is_turned_is_turned_back() {
    let mut heap = Heap::new();
    let mut roots = [heap.pair(number(1), Value::NULL)];
    assert_eq!(heap.collect_all(&mut roots), Ok(3));
    heap.space.turn(&mut roots).unwrap();
    let young = heap.pair(number(2), Value::NULL);
    heap.store(roots[0], 1, young);
    assert_eq!(heap.space.index_of(roots[0], 1), 2);
    let left = heap.space.collect_young(&mut heap.old, &mut heap.cards, &mut roots);
    assert_eq!((left, roots), (Ok(6), [Value::at(0)]));
    assert_eq!(heap.numbers(roots[0]), [1, 2]);
}

#[test]
fn all_is_wanted_where_much_is_old_or_dirty() {
    let mut heap = Heap::new();
    let mut roots = [Value::NULL];
    assert!(!heap.space.wants_all(&mut heap.old, &heap.cards));
    for (pairs, wanted) in [(ROOM / 6, false), (1, true)] {
        for _ in 0..pairs {
            roots[0] = heap.pair(number(0), roots[0]);
        }
        heap.collect_young(&mut roots).unwrap();
        assert_eq!(heap.space.wants_all(&mut heap.old, &heap.cards), wanted);
    }
    roots[0] = heap.space.load(roots[0], 1);
    heap.collect_all(&mut roots).unwrap();
    for card in 0..4 {
        assert!(!heap.space.wants_all(&mut heap.old, &heap.cards));
        heap.cards.mark(CARD * card);
    }
    assert!(heap.space.wants_all(&mut heap.old, &heap.cards));
}

#[test]
fn a_nursery_ends_below_the_room() {
    let mut heap = Heap::new();
    let most = ROOM as u64 - ROOM as u64 / 16;
    let mut roots = [Value::NULL];
    assert_eq!((heap.space.limit_by_nursery(0), heap.space.limit()), (Some(most), most));
    let mut left = heap.space.limit_by_nursery(1000);
    while left.is_some() {
        let used = heap.space.used();
        assert_eq!(heap.space.limit(), most.min(used + 1000));
        while !heap.space.is_due() {
            roots[0] = heap.pair(number(0), roots[0]);
        }
        heap.collect_young(&mut roots).unwrap();
        assert!(heap.space.used() >= used + left.unwrap().min(3));
        left = heap.space.limit_by_nursery(1000);
    }
    assert_eq!(heap.space.limit(), most);
    assert_eq!(heap.collect_all(&mut []), Ok(0));
    assert_eq!(heap.space.limit_by_nursery(5000), Some(most));
}

#[test]
#[should_panic(expected = "a word that has a card")]
fn cards_end_somewhere() {
    let cards = Cards::new(CARD + 1);
    cards.mark(2 * CARD - 1);
    cards.mark(2 * CARD);
}

const SLOTS: u64 = 5;
const COUNT: usize = 40;

/// What the roots reach, as numbers: of each object in the order of a walk its slots, an object by its number there.
fn seen(space: &Space, roots: &[Value]) -> Vec<i64> {
    let (mut met, mut all) = (Vec::new(), Vec::new());
    let mut told = |value: Value, met: &mut Vec<Value>| match value.as_fixnum() {
        Some(n) => all.push(-n),
        None if value.is_null() => all.push(i64::MIN),
        None => {
            let at = met.iter().position(|it| *it == value).unwrap_or_else(|| {
                met.push(value);
                met.len() - 1
            });
            all.push(1 + at as i64);
        }
    };
    roots.iter().for_each(|it| told(*it, &mut met));
    let mut next = 0;
    while next < met.len() {
        (0..SLOTS).for_each(|k| told(space.load(met[next], k), &mut met));
        next += 1;
    }
    all
}

#[test]
fn what_is_reached_is_the_same_after_any_collections() {
    let mut state = 88172645463325252u64;
    let mut draw = move |below: usize| {
        state ^= state << 13;
        state ^= state >> 7;
        state ^= state << 17;
        (state % below as u64) as usize
    };
    let mut heap = Heap::new();
    let (mut roots, mut fields) = ([Value::NULL; COUNT], Vec::new());
    for round in 0..2000 {
        let made = heap.made(SLOTS as u32, 0);
        heap.space.store(made, 0, number(round));
        roots[draw(COUNT)] = made;
        for _ in 0..draw(6) {
            let (object, k) = (roots[draw(COUNT)], draw(SLOTS as usize) as u64);
            if object.is_reference() {
                heap.store(object, k, roots[draw(COUNT)]);
                if heap.space.index_of(object, k) < heap.old.watermark() {
                    fields.push(heap.space.index_of(object, k));
                }
            }
        }
        if draw(8) > 0 {
            roots[draw(COUNT)] = Value::NULL;
            continue;
        }
        let before = seen(&heap.space, &roots);
        let full = heap.space.used() > ROOM as u64 / 2;
        let done = match draw(3) {
            _ if full => heap.collect_all(&mut roots),
            0 => heap.collect_young(&mut roots),
            1 => heap.collect_aging(&mut roots),
            _ => {
                let old = &mut heap.old;
                let done = heap.space.collect_young_by(old, &mut fields, &mut roots);
                heap.cards.clean();
                done
            }
        };
        assert_eq!(done, Ok(heap.space.used()), "{round}");
        assert_eq!(seen(&heap.space, &roots), before, "{round}");
        fields.clear();
        if heap.old.watermark() < heap.space.used() {
            // Of the words of old objects those lead above that are on dirty cards: all of them are handed in.
            let watermark = heap.old.watermark();
            fields.extend(
                (0..watermark).filter(|it| it % (1 + SLOTS) != 0 && heap.cards.is_dirty(*it)),
            );
        }
        assert_eq!(heap.check(), Ok(()), "{round}");
    }
}
