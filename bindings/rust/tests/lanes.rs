//! Heaps that several threads mark by lanes while another one writes to them.

use std::sync::Mutex;
use std::thread;

use compressor::rest::{Buffer, Lane, Looks, Space, Survey};
use compressor::{Edition, Refusal, Shape, Value};

const MARKERS: usize = 3;
const PAIRS: u64 = 3_000;
const MADE: u64 = 100;
const SOME: usize = 8;

fn header(refs: u32) -> u64 {
    Shape { refs, weak: 0, data: 0, tag: 7 }.header(Edition::Four).expect("a shape of edition four")
}

fn pair(space: &Space, buffer: &mut Buffer, first: Value, rest: Value) -> Value {
    let made = space.alloc(buffer, header(2)).expect("room");
    space.store(made, 0, first);
    space.store(made, 1, rest);
    made
}

fn rows_of(space: &Space, indices: &[u64]) -> Vec<u64> {
    let mut rows = Vec::new();
    for &index in indices {
        space.append_row(Value::at(index), &mut rows);
    }
    rows
}

/// Looks at what waits, and at what others gave, until there is none; and gives some away.
fn mark(space: &Space, mut lane: Lane, pool: &Mutex<Vec<u64>>) -> Result<Lane, Refusal> {
    loop {
        let mut indices = [0; SOME];
        let rows = rows_of(space, lane.waiting(&mut indices));
        let mut given = pool.lock().unwrap();
        if rows.is_empty() && given.is_empty() {
            return Ok(lane);
        }
        if rows.is_empty() {
            lane = lane.take(&given)?;
            given.clear();
            continue;
        }
        drop(given);
        lane = lane.look(&rows)?;
        let mut given = pool.lock().unwrap();
        if given.is_empty() {
            given.extend_from_slice(lane.give(&mut indices));
        }
    }
}

fn look_at_all(space: &Space, mut looks: Looks) -> Result<Looks, Refusal> {
    let mut indices = [0; SOME];
    loop {
        let rows = rows_of(space, looks.waiting(&mut indices));
        if rows.is_empty() {
            return Ok(looks);
        }
        looks = looks.look(&rows)?;
    }
}

/// Pairs, each of which leads to one that was made before it; every third one has room for a further reference.
fn make(space: &Space, buffer: &mut Buffer) -> Vec<Value> {
    let mut all = vec![Value::NULL];
    for n in 0..PAIRS {
        let (half, last) = (all[n as usize / 2], all[n as usize]);
        all.push(pair(space, buffer, if n % 3 == 0 { Value::NULL } else { half }, last));
    }
    all
}

#[test]
fn lanes_that_are_joined_have_what_the_roots_reach() {
    let mut space = Space::new(Edition::Four, vec![0; 32_768].into(), 0);
    let mut buffer = Buffer::default();
    let all = make(&space, &mut buffer);
    let (roots, room) = ([all[PAIRS as usize], all[7]], space.room());
    let first = Lane::begin(Edition::Four, room).unwrap().meet(&roots).unwrap();
    let mut lanes = vec![first];
    for _ in 1..MARKERS {
        let other = lanes[0].share().unwrap();
        lanes.push(other);
    }
    let pool = Mutex::new(Vec::new());
    let mut written = Vec::new();
    let marked: Vec<Lane> = thread::scope(|scope| {
        let (space, pool) = (&space, &pool);
        let markers: Vec<_> =
            lanes.into_iter().map(|lane| scope.spawn(move || mark(space, lane, pool))).collect();
        for n in 0..MADE {
            let to = all[3 * n as usize + 1];
            let made = pair(space, &mut buffer, Value::NULL, all[n as usize]);
            space.store_release(to, 0, made);
            written.push(to);
        }
        markers.into_iter().map(|it| it.join().unwrap().unwrap()).collect()
    });
    let joined = marked.into_iter().reduce(|one, other| one.join(other).unwrap()).unwrap();
    let mut looks = joined.take(&pool.into_inner().unwrap()).unwrap().whole().unwrap();
    for to in written {
        let index = to.word() - Value::at(0).word();
        looks = looks.again(index, &rows_of(&space, &[index])).unwrap();
    }
    let mut looks = look_at_all(&space, looks.meet(&roots).unwrap()).unwrap();
    assert_eq!(looks.check(space.memory()), Ok(()));
    let mut survey = looks.finish(&roots).unwrap();
    let mut wanted = Survey::by_roots(Edition::Four, space.memory(), &roots).unwrap();
    let live = 3 * (PAIRS + MADE);
    assert_eq!((survey.live_words(), wanted.live_words()), (live, live));
    let (mut one, mut other) = (vec![0; live as usize], vec![0; live as usize]);
    assert_eq!(survey.slide(space.memory(), 0, &mut one), Ok(()));
    assert_eq!(wanted.slide(space.memory(), 0, &mut other), Ok(()));
    assert!(one == other);
}

fn lane() -> Lane {
    Lane::begin(Edition::Four, 6).unwrap().meet(&[Value::at(3)]).unwrap()
}

#[test]
fn what_is_given_waits_where_it_is_taken() {
    let (mut one, mut indices) = (lane().meet(&[Value::at(0)]).unwrap(), [7; 3]);
    let mut other = one.share().unwrap().meet(&[Value::at(0), Value::at(1)]).unwrap();
    assert_eq!(other.waiting(&mut indices), [1]);
    assert_eq!(one.waiting(&mut indices), [3, 0]);
    assert_eq!(one.give(&mut indices[..1]), [0]);
    assert_eq!(one.waiting(&mut indices), [3]);
    let mut other = other.take(&[0]).unwrap();
    assert_eq!(other.waiting(&mut indices), [1, 0]);
    let mut both = one.join(other).unwrap();
    assert_eq!(both.waiting(&mut indices), [3, 1, 0]);
    assert_eq!(both.whole().unwrap().waiting(&mut indices[..2]), [3, 1]);
}

#[test]
fn lanes_are_refused() {
    let early = Lane::begin(Edition::Two, 6).unwrap_err();
    assert_eq!(early, Refusal::BadEdition { edition: 2 });
    let large = Lane::begin(Edition::Four, Edition::Four.max_words() + 1).unwrap_err();
    assert_eq!(large, Refusal::TooLarge);
    let row = [header(2), 0, Value::at(6).word()];
    assert_eq!(lane().look(&row[..2]).unwrap_err(), Refusal::TooShort { length: 3, which: 0 });
    assert_eq!(lane().look(&row).unwrap_err(), Refusal::BadReference { index: 5 });
    assert_eq!(lane().look(&[0, 0]).unwrap_err(), Refusal::NoSuchObject { index: 0 });
    assert_eq!(lane().meet(&[Value::at(6)]).unwrap_err(), Refusal::BadRoot { number: 0 });
    assert_eq!(lane().take(&[5, 6]).unwrap_err(), Refusal::BadRoot { number: 1 });
    assert_eq!(lane().join(lane()).unwrap_err(), Refusal::Overlap { index: 3 });
    let longer = Lane::begin(Edition::Four, 7).unwrap();
    assert_eq!(lane().join(longer).unwrap_err(), Refusal::OtherHeap);
    let mut given = lane();
    assert_eq!(given.give(&mut [7]), [3]);
    assert_eq!(given.whole().unwrap_err(), Refusal::MissingObject { index: 3 });
}

#[test]
fn a_check_finds_what_is_not_as_it_was_looked_at() {
    let mut looks = lane().look(&[header(0)]).unwrap().whole().unwrap();
    let mut words = [0, 0, 0, header(0), 0, 0];
    assert_eq!(looks.check(&words), Ok(()));
    assert_eq!(looks.check(&words[1..]), Err(Refusal::WrongLength));
    words[3] = header(1);
    assert_eq!(looks.check(&words), Err(Refusal::Changed { index: 3 }));
}
