//! Heaps at rest: lists survive, garbage goes, and values are forwarded.

use std::array;
use std::sync::{Mutex, RwLock};
use std::thread;

use compressor::rest::{
    Buffer, Growing, Help, Job, Looks, Marking, Pages, Space, Survey, Tables, CHUNK,
};
use compressor::{Edition, Refusal, Shape, Value};

const THREADS: usize = 4;
const PAIRS: u64 = 20_000;
const ROOM: usize = 3 * PAIRS as usize + CHUNK as usize;

fn number(n: u64) -> Value {
    Value::fixnum(n as i64).expect("a small number")
}

fn header(refs: u32, weak: u32) -> u64 {
    Shape { refs, weak, data: 0, tag: 7 }.header(Edition::Four).expect("a shape of edition four")
}

fn space() -> Space<'static> {
    Space::new(Edition::Four, vec![0; ROOM].into(), 0)
}

fn pair(space: &Space, buffer: &mut Buffer, first: Value, rest: Value) -> Value {
    let made = space.alloc(buffer, header(2, 0)).expect("room");
    space.store(made, 0, first);
    space.store(made, 1, rest);
    made
}

/// Lists of the numbers k, k + 4, k + 8 .., of which every second pair is dropped again.
fn make_lists(space: &Space) -> [Value; THREADS] {
    let (mut buffer, mut roots) = (Buffer::default(), [Value::NULL; THREADS]);
    for n in 0..PAIRS {
        let k = n as usize % THREADS;
        let made = pair(space, &mut buffer, number(n), roots[k]);
        if n / THREADS as u64 % 2 == 0 {
            roots[k] = made;
        }
    }
    roots
}

fn numbers(space: &Space, list: Value) -> Vec<i64> {
    let (mut all, mut at) = (Vec::new(), list);
    while at.is_reference() {
        all.push(space.load(at, 0).as_fixnum().expect("a number"));
        at = space.load(at, 1);
    }
    all
}

fn check_lists(space: &Space, roots: &[Value]) {
    let (threads, pairs) = (THREADS as i64, PAIRS as i64);
    for (k, &root) in (0..).zip(roots) {
        let wanted: Vec<i64> =
            (0..pairs / threads / 2).map(|n| k + 2 * threads * n).rev().collect();
        assert_eq!(numbers(space, root), wanted);
    }
}

#[test]
fn lists_survive_in_place() {
    let mut space = space();
    let mut roots = make_lists(&space);
    check_lists(&space, &roots);
    assert_eq!(space.collect(&mut roots), Ok(3 * PAIRS / 2));
    assert_eq!(space.used(), 3 * PAIRS / 2);
    check_lists(&space, &roots);
    assert_eq!(space.collect(&mut roots[..1]), Ok(3 * PAIRS / 8));
    check_lists(&space, &roots[..1]);
    assert_eq!(space.collect(&mut []), Ok(0));
}

#[test]
fn lists_survive_in_another_memory() {
    let mut mapped = vec![5; ROOM];
    let mut space = Space::within(Edition::Four, &mut mapped, 0);
    let mut other = Space::new(Edition::Four, vec![9; ROOM].into(), 17);
    let mut roots = make_lists(&space);
    for _ in 0..3 {
        assert_eq!(space.collect_into(&mut other, &mut roots), Ok(3 * PAIRS / 2));
        check_lists(&space, &roots);
        assert_eq!(other.used(), 0);
    }
    let mut short = Space::new(Edition::Four, vec![1; 7].into(), 0);
    let before = roots;
    let refused = space.collect_into(&mut short, &mut roots);
    assert_eq!(refused, Err(Refusal::TooShort { length: 3 * PAIRS / 2, which: 0 }));
    assert_eq!((roots, short.memory()), (before, &mut [1; 7][..]));
    check_lists(&space, &roots);
}

#[test]
fn collections_by_tables_take_them_again_and_again() {
    let (mut space, mut other) = (space(), space());
    let mut roots = make_lists(&space);
    let mut tables = Tables::reserve(ROOM as u64).unwrap();
    assert_eq!(space.collect_lent(&mut tables, &mut roots), Ok(3 * PAIRS / 2));
    check_lists(&space, &roots);
    let live = space.collect_into_lent(&mut tables, &mut other, &mut roots);
    assert_eq!(live, Ok(3 * PAIRS / 2));
    check_lists(&space, &roots);
    let mut few = Tables::reserve(64).unwrap();
    let refused = space.collect_lent(&mut few, &mut roots);
    assert_eq!(refused, Err(Refusal::ShortTables { words: 64 }));
    check_lists(&space, &roots);
}

#[test]
fn a_weak_word_goes_with_its_object() {
    let mut space = space();
    let mut buffer = Buffer::default();
    let dead = pair(&space, &mut buffer, number(1), Value::NULL);
    let live = pair(&space, &mut buffer, number(2), Value::NULL);
    let table = space.alloc(&mut buffer, header(0, 3)).unwrap();
    for (k, value) in [dead, live, number(3)].into_iter().enumerate() {
        space.store(table, k as u64, value);
    }
    let mut roots = [live, table, number(-4i64 as u64)];
    assert_eq!(space.collect(&mut roots), Ok(3 + 4));
    let [live, table, immediate] = roots;
    assert_eq!((live, immediate), (Value::at(0), number(-4i64 as u64)));
    assert_eq!(space.load(table, 0), Value::NULL);
    assert_eq!(space.load(table, 1), live);
    assert_eq!(space.load(table, 2), number(3));
    assert_eq!(space.shape(table), Shape { refs: 0, weak: 3, data: 0, tag: 7 });
    assert_eq!(space.object_around(4), Some(table));
    assert_eq!(space.object_around(7), None);
}

#[test]
fn an_object_becomes_another_one_of_as_many_words() {
    let mut space = space();
    let mut buffer = Buffer::default();
    let leaf = pair(&space, &mut buffer, number(1), Value::NULL);
    let lost = pair(&space, &mut buffer, number(2), Value::NULL);
    let object = pair(&space, &mut buffer, leaf, lost);
    assert_eq!(space.header(object), header(2, 0));
    let half = Shape { refs: 1, weak: 0, data: 1, tag: 9 };
    space.set_header(object, half.header(Edition::Four).unwrap());
    assert_eq!(space.shape(object), half);
    let mut roots = [object];
    assert_eq!(space.collect(&mut roots), Ok(6)); // the data word keeps nothing
    assert_eq!(space.load(roots[0], 0), Value::at(0));
    assert_eq!(space.load_word(roots[0], 1), lost.word());
    // One reference; the third word is an object too, which nothing reaches.
    space.store_word(roots[0], 1, 0);
    space.set_header(roots[0], header(1, 0));
    assert_eq!(space.collect(&mut roots), Ok(5));
    assert_eq!(space.header(roots[0]), header(1, 0));
}

#[test]
fn no_object_that_ends_past_the_used_words_is_around_one() {
    let mut space = Space::new(Edition::Four, vec![0; 100].into(), 3);
    space.words()[0] = Shape { refs: 3, weak: 0, data: 0, tag: 1 }.header(Edition::Four).unwrap();
    assert_eq!(space.object_around(0), None);
    assert_eq!(space.object_around(50), None);
    space.words()[0] = Shape { refs: 2, weak: 0, data: 0, tag: 1 }.header(Edition::Four).unwrap();
    assert_eq!(space.object_around(2), Some(Value::at(0)));
}

#[test]
fn large_objects_have_the_shapes_that_headers_say() {
    const MANY: u32 = 70_000;
    let shapes = [
        Shape { refs: MANY, data: 3, tag: 16383, ..Shape::default() },
        Shape { data: MANY, refs: 3, tag: 1, ..Shape::default() },
        Shape { weak: MANY, data: 3, tag: 2, ..Shape::default() },
        Shape { refs: 1, weak: 65535, data: 65535, tag: 3 },
    ];
    let memory = vec![0; 5 * MANY as usize].into();
    let mut space = Space::new(Edition::Three, memory, 0);
    let mut buffer = Buffer::default();
    let header = |shape: Shape| shape.header(Edition::Three).unwrap();
    let dead = space.alloc(&mut buffer, 0).unwrap();
    let mut roots = shapes.map(|it| space.alloc(&mut buffer, header(it)).unwrap());
    let [refs, data, weak, mixed] = roots;
    space.store(refs, u64::from(MANY) - 1, data);
    space.store(data, 2, weak);
    space.store_word(data, u64::from(MANY) + 2, 5);
    space.store(weak, u64::from(MANY) - 1, dead);
    space.store_word(weak, u64::from(MANY), dead.word());
    space.store(mixed, 65535, mixed);
    assert_eq!(space.alloc(&mut buffer, header(shapes[0])), None);
    assert_eq!(space.collect(&mut roots), Ok(shapes.iter().map(|it| it.words()).sum()));
    let [refs, data, weak, mixed] = roots;
    assert_eq!(roots.map(|it| space.shape(it)), shapes);
    assert_eq!(space.load(refs, u64::from(MANY) - 1), data);
    assert_eq!(space.load(data, 2), weak);
    assert_eq!(space.load_word(data, u64::from(MANY) + 2), 5);
    assert_eq!(space.load(weak, u64::from(MANY) - 1), Value::NULL);
    assert_eq!(space.load_word(weak, u64::from(MANY)), dead.word());
    assert_eq!(space.load(mixed, 65535), mixed);
}

/// Each thread slides a part by a share of its own, and forwards a root, if one is left.
fn slide_by_threads(
    survey: &mut Survey,
    space: &mut Space<'static>,
    to: &mut Space<'static>,
    roots: &mut [Value],
) {
    let live = survey.live_words();
    let each = live.div_ceil(THREADS as u64).max(1);
    let words = &*space.words();
    thread::scope(|scope| {
        let mut roots = roots.chunks_mut(1);
        for (k, part) in (0..).zip(to.memory()[..live as usize].chunks_mut(each as usize)) {
            let mut own = survey.share().unwrap();
            let root = roots.next().unwrap_or_default();
            scope.spawn(move || {
                own.slide(words, k * each, part).unwrap();
                own.forward(root).unwrap();
            });
        }
    });
    space.exchange(to, live);
}

#[test]
fn four_threads_slide_what_was_surveyed() {
    let (mut space, mut to) = (space(), space());
    let mut roots = make_lists(&space);
    let tables = Tables::reserve(ROOM as u64).unwrap();
    let made = Survey::by_roots_lent(tables, Edition::Four, space.words(), &roots);
    let mut survey = made.unwrap();

    let mut part = [5, 6];
    let used = space.used();
    assert_eq!(survey.slide(space.words(), used, &mut part), Err(Refusal::NoSuchPart));
    assert_eq!(survey.slide(&space.words()[1..], 0, &mut part), Err(Refusal::OtherCount));
    assert_eq!(part, [5, 6]);
    let mut strays = [roots[0], Value::at(1)];
    assert_eq!(survey.forward(&mut strays), Err(Refusal::BadRoot { number: 1 }));
    assert_eq!(strays, [roots[0], Value::at(1)]);
    assert_eq!(survey.forward_weak(&mut strays[1..]), 1);
    assert_eq!(strays[1], Value::NULL);

    slide_by_threads(&mut survey, &mut space, &mut to, &mut roots);
    assert_eq!(space.used(), 3 * PAIRS / 2);
    check_lists(&space, &roots);

    let share = survey.share().unwrap();
    let refused = survey.into_tables().unwrap_err();
    assert_eq!(refused.refusal, Refusal::StillShared);
    drop(share);
    let mut tables = refused.back.into_tables().unwrap().expect("tables that were lent");
    assert_eq!(space.collect_lent(&mut tables, &mut roots[..2]), Ok(3 * PAIRS / 4));
    check_lists(&space, &roots[..2]);
}

#[test]
fn four_threads_touch_pages() {
    const PAGE: u64 = 512;
    let (mut space, mut to) = (space(), space());
    let mut roots = make_lists(&space);
    let mut survey = Survey::by_roots(Edition::Four, space.words(), &roots).unwrap();
    survey.forward(&mut roots).unwrap();
    let live = survey.live_words();
    let refused = Pages::begin(survey, 0).unwrap_err();
    assert_eq!(refused.refusal, Refusal::NoSize);
    let (pages, count) = Pages::begin(refused.back, PAGE).unwrap();
    assert_eq!(count, live.div_ceil(PAGE));
    let refused = pages.end().unwrap_err();
    assert_eq!(refused.refusal, Refusal::NotHome { page: 0 });
    let mut pages = refused.back;
    assert_eq!(pages.claim(count).unwrap_err(), Refusal::NoSuchPage { page: count });
    let refused = pages.claim(0).unwrap().build(space.words(), &mut []);
    assert_eq!(refused.unwrap_err(), Refusal::OtherLength { words: PAGE });

    let words = &*space.words();
    let memory: Vec<Mutex<&mut [u64]>> =
        to.memory()[..live as usize].chunks_mut(PAGE as usize).map(Mutex::new).collect();
    thread::scope(|scope| {
        for first in (0..THREADS as u64).map(|it| 5 * it) {
            let (mut own, memory) = (pages.share().unwrap(), &memory);
            scope.spawn(move || {
                for page in (0..count).map(|it| (it + first) % count) {
                    match own.claim(page) {
                        Ok(turn) => {
                            let mut part = memory[page as usize].lock().unwrap();
                            turn.build(words, &mut part).unwrap().publish();
                        }
                        Err(Refusal::PageHome { .. } | Refusal::PageBusy { .. }) => {}
                        Err(refusal) => panic!("{refusal}"),
                    }
                }
            });
        }
    });
    assert_eq!(pages.claim(1).unwrap_err(), Refusal::PageHome { page: 1 });
    drop(memory);
    assert!(pages.end().unwrap().into_tables().unwrap().is_none());
    space.exchange(&mut to, live);
    check_lists(&space, &roots);
}

#[test]
fn words_that_changed_are_seen() {
    let mut space = space();
    let mut buffer = Buffer::default();
    let made = pair(&space, &mut buffer, Value::NULL, Value::NULL);
    space.set_limit(3);
    assert!(space.is_due());
    let mut survey = Survey::by_roots(Edition::Four, space.words(), &[made]).unwrap();
    let mut part = [0; 3];
    space.store(made, 0, Value::at(2));
    let slid = survey.slide(space.words(), 0, &mut part);
    assert_eq!(slid, Err(Refusal::Unmarked { index: 1 }));
    space.words()[0] = header(1, 0);
    let slid = survey.slide(space.words(), 0, &mut part);
    assert_eq!(slid, Err(Refusal::Changed { index: 0 }));
    assert!(survey.into_tables().unwrap().is_none());
}

#[test]
fn marks_of_the_runtime_are_taken() {
    let (mut space, mut to) = (space(), space());
    let mut roots = make_lists(&space);
    let mut marks = vec![0; (space.used() as usize).div_ceil(64)];
    for &root in &roots[..2] {
        let mut at = root;
        while at.is_reference() {
            let index = at.word() - Value::at(0).word();
            marks[index as usize / 64] |= 1 << (index % 64);
            at = space.load(at, 1);
        }
    }
    let survey = |space: &mut Space, roots: &[Value], marks: &[u64]| {
        Survey::by_marks(Edition::Four, space.words(), roots, marks)
    };
    let refused = survey(&mut space, &roots, &marks).unwrap_err();
    assert_eq!(refused, Refusal::BadRoot { number: 2 });
    let refused = survey(&mut space, &roots[..2], &marks[1..]).unwrap_err();
    assert_eq!(refused, Refusal::WrongLength);
    let mut survey = survey(&mut space, &roots[..2], &marks).unwrap();
    slide_by_threads(&mut survey, &mut space, &mut to, &mut roots[..2]);
    assert_eq!(space.used(), 3 * PAIRS / 4);
    check_lists(&space, &roots[..2]);
}

#[test]
fn bits_of_the_runtime_are_taken_and_the_slide_asks() {
    let mut space = space();
    let mut buffer = Buffer::default();
    let last = pair(&space, &mut buffer, Value::NULL, Value::NULL);
    let first = pair(&space, &mut buffer, Value::NULL, last);
    let words = space.words()[..6].to_vec();
    let survey =
        |heads: u64, live: u64| Survey::by_bits(Edition::Four, 6, &[first], &[heads], &[live]);
    assert_eq!(survey(0b1001, 0b11_1110).unwrap_err(), Refusal::NotARun { index: 0 });
    assert_eq!(survey(0b100_1001, 0b111_1111).unwrap_err(), Refusal::ObjectPastEnd { index: 6 });
    assert_eq!(survey(0b1, 0b111).unwrap_err(), Refusal::BadRoot { number: 0 });
    let early = Survey::by_bits(Edition::Two, 6, &[first], &[0b1001], &[0b11_1111]);
    assert_eq!(early.unwrap_err(), Refusal::BadEdition { edition: 2 });
    let mut part = [0; 6];
    let slid = survey(0b1000, 0b11_1000).unwrap().slide(&words, 0, &mut part[..3]);
    assert_eq!(slid, Err(Refusal::Unmarked { index: 5 }));
    let slid = survey(0b1001, 0b11_1011).unwrap().slide(&words, 0, &mut part[..5]);
    assert_eq!(slid, Err(Refusal::Changed { index: 0 }));
    let slid = survey(0b1001, 0b11_1111).unwrap().slide(&words, 0, &mut part);
    assert_eq!(slid, Ok(()));
    assert_eq!(part[..], words);
}

/// Looks at what waits until none does.
fn look_at_all(space: &Space, mut looks: Looks) -> Result<Looks, Refusal> {
    let mut indices = [0; 2];
    loop {
        let (mut rows, waiting) = (Vec::new(), looks.waiting(&mut indices));
        for &index in waiting {
            space.append_row(Value::at(index), &mut rows);
        }
        if rows.is_empty() {
            return Ok(looks);
        }
        looks = looks.look(&rows)?;
    }
}

#[test]
fn what_is_written_to_is_looked_at_again() {
    let mut space = space();
    let mut buffer = Buffer::default();
    let last = pair(&space, &mut buffer, number(1), Value::NULL);
    let first = pair(&space, &mut buffer, last, Value::NULL);
    let room = space.room();
    let marked = |space: &Space| look_at_all(space, Looks::begin(Edition::Four, room, &[first])?);
    let (forgetful, looks) = (marked(&space).unwrap(), marked(&space).unwrap());
    let made = pair(&space, &mut buffer, number(2), last);
    space.store_release(first, 1, made);
    let mut row = Vec::new();
    space.append_row(first, &mut row);
    assert_eq!(row[1..], [last.word(), made.word()]);
    let looks = looks.again(6, &row).unwrap(); // nothing was met there, as yet
    let looks = looks.again(3, &row).unwrap();
    let refused = looks.finish(&[first]).unwrap_err();
    assert_eq!(refused.refusal, Refusal::StillWaiting { index: 6 });
    let looks = look_at_all(&space, refused.back.unwrap()).unwrap();
    let mut survey = looks.meet(&[made]).unwrap().finish(&[made, first]).unwrap();
    let mut part = [0; 9];
    assert_eq!((survey.live_words(), survey.slide(space.memory(), 0, &mut part)), (9, Ok(())));
    assert_eq!(part[..], space.words()[..9]);
    let mut survey = forgetful.finish(&[first]).unwrap();
    assert_eq!(survey.live_words(), 6);
    let slid = survey.slide(space.memory(), 0, &mut part[..6]);
    assert_eq!(slid, Err(Refusal::Unmarked { index: 5 }));
}

#[test]
fn looks_are_refused() {
    let begin = |edition, roots: &[Value]| Looks::begin(edition, 3, roots);
    let early = begin(Edition::Two, &[]).unwrap_err();
    assert_eq!(early, Refusal::BadEdition { edition: 2 });
    let astray = begin(Edition::Four, &[Value::at(3)]).unwrap_err();
    assert_eq!(astray, Refusal::BadRoot { number: 0 });
    let looks = || begin(Edition::Four, &[Value::at(0)]).unwrap();
    let row = [header(2, 0), 0, Value::at(3).word()];
    assert_eq!(looks().look(&row[..2]).unwrap_err(), Refusal::TooShort { length: 3, which: 0 });
    assert_eq!(looks().look(&row).unwrap_err(), Refusal::BadReference { index: 2 });
    assert_eq!(looks().look(&[0, 0]).unwrap_err(), Refusal::NoSuchObject { index: 0 });
    assert_eq!(looks().meet(&[Value::at(3)]).unwrap_err(), Refusal::BadRoot { number: 0 });
    let refused = begin(Edition::Four, &[]).unwrap().finish(&[Value::at(0)]).unwrap_err();
    assert_eq!(refused.refusal, Refusal::BadRoot { number: 0 });
    assert!(refused.back.is_none());
}

#[test]
fn what_is_lost_is_told_and_lives() {
    let pair = header(2, 0);
    // A pair that is a root; one that is guarded; the value of an ephemeron whose key is the guarded one; a dead one.
    let words = [pair, 0, 0, pair, 0, 0, pair, 0, 0, pair, 0, 0];
    let at = Value::at;
    let mut guarded = [at(0), at(3)];
    let of = [[at(0), at(3), at(6)]];
    let found = Survey::guarded(Edition::Four, &words, &[at(0)], &of, &mut guarded);
    let (mut survey, lost) = found.unwrap();
    assert_eq!((survey.live_words(), lost, guarded), (9, 1, [at(3), at(0)]));
    let found = Survey::guarded(Edition::Four, &words, &[at(0)], &of, &mut [at(0), at(12)]);
    assert_eq!(found.unwrap_err(), Refusal::BadRoot { number: 5 });
}

#[test]
fn a_survey_grows() {
    let pair = header(2, 0);
    let at = Value::at;
    // Four pairs; the first one leads to the second one.
    let mut words = [0; 12];
    for (i, word) in words.iter_mut().enumerate() {
        *word = if i % 3 == 0 { pair } else { 0 };
    }
    words[1] = at(3).word();
    let one = Growing::begin(Edition::Four, &words).unwrap();
    let mut one = one.also(&[at(0)]).unwrap();
    assert_eq!(
        (one.kept(), one.keeps(at(3)), one.keeps(at(6)), one.keeps(at(1))),
        (2, true, false, false)
    );
    assert!(one.keeps(Value::NULL) && one.keeps(Value::fixnum(7).unwrap()));
    // The key of the first value is kept by the second one.
    let of = [[at(0), at(9), at(9)], [at(0), at(6), at(9)], [at(3), at(3), at(6)]];
    let one = one.also_values(&of[..1]).unwrap();
    assert_eq!(one.kept(), 2);
    let one = one.also_values(&of).unwrap();
    assert_eq!(one.kept(), 4);
    let mut survey = one.settle().unwrap();
    assert_eq!(survey.live_words(), 12);
    assert!(survey.into_tables().unwrap().is_none());

    let tables = Tables::reserve(11).unwrap();
    let short = Growing::begin_lent(tables, Edition::Four, &words).unwrap_err();
    assert_eq!(short.refusal, Refusal::ShortTables { words: 11 });
    let tables = Tables::reserve(12).unwrap();
    let one = Growing::begin_lent(tables, Edition::Four, &words).unwrap();
    let refused = one.also(&[at(0), at(12)]).unwrap_err();
    assert_eq!(refused.refusal, Refusal::BadRoot { number: 1 });
    let tables = refused.back.expect("the tables come back");
    let one = Growing::begin_lent(tables, Edition::Four, &words).unwrap();
    let refused = one.also(&[at(9)]).unwrap().also_values(&[[at(9), at(9), at(12)]]).unwrap_err();
    assert_eq!(refused.refusal, Refusal::BadRoot { number: 2 });
    let tables = refused.back.expect("the tables come back");
    let one = Growing::begin_lent(tables, Edition::Four, &words).unwrap();
    assert!(one.into_tables().is_some());
    let one = Growing::begin(Edition::Four, &words).unwrap();
    assert!(one.also(&[at(12)]).unwrap_err().back.is_none());
    assert!(Growing::begin(Edition::Four, &words).unwrap().into_tables().is_none());
}

#[test]
fn four_threads_mark() {
    let (mut space, mut to) = (space(), space());
    let mut roots = make_lists(&space);
    let mut job = Job::begin(Edition::Four, space.words(), &roots).unwrap();
    let shares: Vec<Job> = (0..THREADS).map(|_| job.share().unwrap()).collect();
    let refused = job.finish().unwrap_err();
    assert_eq!(refused.refusal, Refusal::StillShared);
    thread::scope(|scope| {
        for (who, mut own) in (0..).zip(shares) {
            scope.spawn(move || while own.help(who) != Help::Done {});
        }
    });
    let mut job = refused.back.expect("the job comes back");
    assert_eq!(job.help(0), Help::Done);
    let mut survey = job.finish().unwrap();
    assert_eq!(survey.live_words(), 3 * PAIRS / 2);
    slide_by_threads(&mut survey, &mut space, &mut to, &mut roots);
    check_lists(&space, &roots);
}

#[test]
fn a_job_of_a_bad_heap_is_gone() {
    let job = Job::begin(Edition::Four, &[0, 0], &[Value::at(2)]).unwrap();
    let refused = job.finish().unwrap_err();
    assert_eq!(refused.refusal, Refusal::BadRoot { number: 0 });
    assert!(refused.back.is_none());
}

/// Helps until nothing is left.
fn help_all(own: &mut Marking, words: &[u64], who: u64) {
    while own.help(words, who).unwrap() != Help::Done {}
}

#[test]
fn four_threads_mark_what_is_lent() {
    let (mut space, mut to) = (space(), space());
    let mut roots = make_lists(&space);
    let words: &[u64] = space.words();
    let mut marking = Marking::begin(Edition::Four, words.len() as u64, &roots[..2]).unwrap();
    let shares: Vec<Marking> = (0..THREADS).map(|_| marking.share().unwrap()).collect();
    let refused = marking.finish(&roots).unwrap_err();
    assert_eq!(refused.refusal, Refusal::StillShared);
    thread::scope(|scope| {
        for (who, mut own) in (0..).zip(shares) {
            scope.spawn(move || help_all(&mut own, words, who));
        }
    });
    let mut marking = refused.back.expect("the marking comes back");
    marking.meet(&roots).unwrap(); // those that were not there at the beginning
    help_all(&mut marking, words, 0);
    let mut survey = marking.finish(&roots).unwrap();
    assert_eq!(survey.live_words(), 3 * PAIRS / 2);
    slide_by_threads(&mut survey, &mut space, &mut to, &mut roots);
    check_lists(&space, &roots);
}

#[test]
fn what_is_written_between_steps_is_met() {
    let pair = header(2, 0);
    let at = Value::at;
    // A pair that leads to another one, which is cut off, and room for a third one.
    let mut words = [pair, at(3).word(), 0, pair, 0, 0, 0, 0, 0];
    let begin = || Marking::begin(Edition::Four, 9, &[at(0)]).unwrap();
    let (mut marking, mut forgetful) = (begin(), begin());
    help_all(&mut forgetful, &words, 0);
    (words[6], words[1]) = (pair, at(6).word());
    marking.meet(&[at(3), at(6)]).unwrap();
    help_all(&mut marking, &words, 0);
    let mut part = [0; 9];
    let mut survey = marking.finish(&[at(0)]).unwrap();
    assert_eq!((survey.live_words(), survey.slide(&words, 0, &mut part)), (9, Ok(())));
    assert_eq!(part, words);
    let mut survey = forgetful.finish(&[at(0)]).unwrap();
    assert_eq!(survey.live_words(), 6);
    let slid = survey.slide(&words, 0, &mut part[..6]);
    assert_eq!(slid, Err(Refusal::Unmarked { index: 1 }));
}

#[test]
fn markings_are_refused() {
    let at = Value::at;
    let begin = |edition, roots: &[Value]| Marking::begin(edition, 3, roots);
    let early = begin(Edition::Two, &[]).unwrap_err();
    assert_eq!(early, Refusal::BadEdition { edition: 2 });
    let astray = begin(Edition::Four, &[Value::NULL, at(3)]).unwrap_err();
    assert_eq!(astray, Refusal::BadRoot { number: 1 });
    let mut marking = begin(Edition::Four, &[at(0)]).unwrap();
    assert_eq!(marking.help(&[0; 2], 0), Err(Refusal::WrongLength));
    assert_eq!(marking.meet(&[at(3)]), Err(Refusal::BadRoot { number: 0 }));
    let refused = marking.finish(&[at(0)]).unwrap_err();
    assert_eq!((refused.refusal, refused.back.is_none()), (Refusal::StillMarking, true));
    let mut marking = begin(Edition::Four, &[at(0)]).unwrap();
    help_all(&mut marking, &[header(3, 0), 0, 0], 0);
    assert_eq!(marking.finish(&[]).unwrap_err().refusal, Refusal::BadObject { index: 0 });
    let mut marking = begin(Edition::Four, &[at(0)]).unwrap();
    help_all(&mut marking, &[0; 3], 0);
    let refused = marking.finish(&[at(0), at(1)]).unwrap_err();
    assert_eq!(refused.refusal, Refusal::BadRoot { number: 1 });
}

#[test]
fn a_space_that_is_turned_finds_what_was_forgotten() {
    let mut space = space();
    let mut roots = make_lists(&space);
    for turns in 0..3 {
        space.collect(&mut roots).unwrap();
        space.turn(&mut roots).unwrap();
        check_lists(&space, &roots);
        let mut buffer = Buffer::default();
        let made = pair(&space, &mut buffer, Value::NULL, roots[turns]);
        assert_eq!(numbers(&space, space.load(made, 1)), numbers(&space, roots[turns]));
    }
    let forgotten = roots[0];
    space.collect(&mut roots).unwrap();
    space.turn(&mut roots).unwrap();
    assert_eq!(space.turn(&mut [forgotten]), Err(Refusal::BadRoot { number: 0 }));
    let first = space.object_around(0).unwrap();
    space.store(first, 1, forgotten);
    assert_eq!(space.collect(&mut roots), Err(Refusal::BadReference { index: 2 }));
}

#[test]
#[should_panic(expected = "has no word 0 in this space")]
fn a_value_of_before_a_turn_leads_nowhere() {
    let mut space = space();
    let mut roots = make_lists(&space);
    let forgotten = roots[0];
    space.turn(&mut roots).unwrap();
    space.load(forgotten, 0);
}

/// What a thread has of a heap that is filled: the list of what it keeps, and how many objects that are.
struct Filling {
    buffer: Buffer,
    list: Value,
    kept: u64,
    made: u64,
}

impl Filling {
    fn new() -> Filling {
        Filling { buffer: Buffer::default(), list: Value::NULL, kept: 0, made: 0 }
    }

    /// Makes objects of 3 to 9 words, of so many words together, and keeps one of so many.
    fn step(&mut self, space: &Space, words: u64, kept_each: u64) {
        let mut left = words;
        while left > 0 {
            let size = if left < 12 { left } else { 3 + self.made % 7 };
            let shape = Shape { refs: 1, data: size as u32 - 2, ..Shape::default() };
            let made = space.alloc(&mut self.buffer, shape.header(Edition::Four).unwrap());
            let made = made.expect("room, for the heap is not full");
            if self.made % kept_each == 0 {
                space.store(made, 0, self.list);
                space.store_word(made, u64::from(shape.data), self.kept);
                self.list = made;
                self.kept += 1;
            }
            self.made += 1;
            left -= size;
        }
    }

    fn check(&self, space: &Space) {
        let (mut at, mut left) = (self.list, self.kept);
        while at.is_reference() {
            left -= 1;
            assert_eq!(space.load_word(at, u64::from(space.shape(at).data)), left);
            at = space.load(at, 0);
        }
        assert_eq!(left, 0);
    }
}

/// Sets the limit, above which there is room for so many words. `None` if the heap is full.
fn limit_with(space: &mut Space, live: u64, factor: u64, need: u64) -> Option<u64> {
    let left = space.limit_by(live, factor);
    let limit = space.limit().min(space.room() - need);
    space.set_limit(limit);
    left.filter(|_| live < limit)
}

/// Each makes a whole step after the last one has looked whether it is due: the worst that threads can do.
#[test]
fn no_room_is_missing_before_a_heap_is_full() {
    for (room, step) in [(64, 3), (100, 3), (256, 3), (1000, 15), (4096, 64), (65536, 1000)] {
        for (buffers, factor) in [(1, 1), (1, 2), (4, 1), (4, 2)] {
            let mut space = Space::new(Edition::Four, vec![0; room].into(), 0);
            let mut all: Vec<_> = (0..buffers).map(|_| Filling::new()).collect();
            let (need, room) = (buffers * step, room as u64);
            let mut left = limit_with(&mut space, 0, factor, need);
            let (mut most, mut collections) = (0, 0);
            while left.is_some() {
                all.iter_mut().for_each(|it| it.step(&space, step, factor));
                if !space.is_due() {
                    continue;
                }
                let mut roots: Vec<_> = all.iter().map(|it| it.list).collect();
                let live = space.collect(&mut roots).unwrap();
                all.iter_mut().zip(roots).for_each(|(it, root)| it.list = root);
                left = limit_with(&mut space, live, factor, need);
                most = if left.is_some() { live } else { most };
                collections += 1;
            }
            all.iter().for_each(|it| it.check(&space));
            // There are more where buffers take all that is left, and do not use it.
            assert!(collections <= 24, "{collections}, in {room} words");
            if 4 * step <= room / 16 {
                assert!(most > room / 4 * 3, "{most} of {room}");
            } else {
                assert!(most > room / 16 * 7, "{most} of {room}");
            }
        }
    }
}

#[test]
fn threads_fill_a_space() {
    const STEP: u64 = 1024;
    const NEED: u64 = STEP * THREADS as u64;
    let mut space = Space::new(Edition::Four, vec![0; 16 * NEED as usize].into(), 0);
    let left = limit_with(&mut space, 0, 1, NEED);
    let lists: [Mutex<Filling>; THREADS] = array::from_fn(|_| Mutex::new(Filling::new()));
    let world = RwLock::new((space, left, lists));
    let work = |k: usize| loop {
        let running = world.read().unwrap();
        let (space, left, lists) = &*running;
        if left.is_none() {
            break;
        }
        lists[k].lock().unwrap().step(space, STEP, 2);
        let is_due = space.is_due();
        drop(running);
        if !is_due {
            continue;
        }
        let (space, left, lists) = &mut *world.write().unwrap();
        if space.is_due() && left.is_some() {
            let mut roots = lists.each_mut().map(|it| it.get_mut().unwrap().list);
            let live = space.collect(&mut roots).unwrap();
            for (it, root) in lists.iter_mut().zip(roots) {
                it.get_mut().unwrap().list = root;
            }
            *left = limit_with(space, live, 1, NEED);
        }
    };
    thread::scope(|scope| {
        for k in 0..THREADS {
            scope.spawn(move || work(k));
        }
    });
    let (space, left, lists) = &*world.read().unwrap();
    assert!(left.is_none() && space.used() >= 15 * NEED);
    lists.iter().for_each(|it| it.lock().unwrap().check(space));
}

#[test]
fn limits_are_below_the_room_for_any_numbers() {
    for room in [0, 1, 2, 7, 15, 16, 17, 64, 1000, 4095] {
        let mut space = Space::new(Edition::Four, vec![0; room].into(), 0);
        let room = room as u64;
        let most = room - room.div_ceil(16);
        let ends = (0..3).flat_map(|k| [room + k, u64::MAX - k]);
        for live in (0..=room).chain(ends) {
            for factor in [0, 1, 2, 3, 7, (1 << 63) + 1, u64::MAX] {
                let more = space.limit_by(live, factor);
                assert_eq!(more.is_none(), live >= most);
                let Some(more) = more else {
                    assert_eq!(space.limit(), most);
                    continue;
                };
                let asked = u128::from(live) * u128::from(factor.max(1) - 1);
                let wanted = asked.max(u128::from(room.div_ceil(8)));
                assert_eq!(u128::from(more), wanted.min(u128::from(most - live)));
                assert_eq!(space.limit(), live + more);
            }
        }
    }
}

#[test]
fn a_limit_stays_over_collections() {
    let (mut space, mut other) = (space(), Space::new(Edition::Four, vec![0; 50].into(), 0));
    assert_eq!(space.limit(), ROOM as u64);
    space.set_limit(70);
    assert_eq!(space.collect(&mut []), Ok(0));
    assert_eq!(space.limit(), 70);
    assert_eq!(space.collect_into(&mut other, &mut []), Ok(0));
    assert_eq!((space.limit(), other.limit()), (50, ROOM as u64));
    space.set_limit(0);
    space.reset(0);
    assert_eq!(space.limit(), 50);
}

/// Threads make lists and show them to each other; who finds that it is time stops the world and collects.
#[test]
fn threads_share_a_space_by_a_lock() {
    const LIMIT: u64 = ROOM as u64 / 2;
    let world = RwLock::new((space(), [Value::NULL; THREADS]));
    {
        let mut all = world.write().unwrap();
        let mut buffer = Buffer::default();
        // The board: an object of one reference for each thread, which is the first root.
        let board = all.0.alloc(&mut buffer, header(THREADS as u32, 0)).unwrap();
        all.1[0] = board;
        all.0.set_limit(LIMIT);
    }
    let work = |k: u64| {
        let mut buffer = Buffer::default();
        for n in 0..PAIRS {
            let running = world.read().unwrap();
            let (space, [board, ..]) = &*running;
            let list = space.load_acquire(*board, k);
            let made = pair(space, &mut buffer, number(n), list);
            if n % 10 == 0 {
                space.store_release(*board, k, made);
            }
            drop(running);
            if !world.read().unwrap().0.is_due() {
                continue;
            }
            let (space, roots) = &mut *world.write().unwrap();
            if space.is_due() {
                space.collect(roots).unwrap();
                space.set_limit(LIMIT);
            }
        }
    };
    thread::scope(|scope| {
        for k in 0..THREADS as u64 {
            scope.spawn(move || work(k));
        }
    });
    let (space, [board, ..]) = &*world.read().unwrap();
    for k in 0..THREADS as u64 {
        let wanted: Vec<i64> = (0..PAIRS as i64 / 10).map(|n| 10 * n).rev().collect();
        assert_eq!(numbers(space, space.load(*board, k)), wanted);
    }
}
