//! Collections around pins: an object stays as long as a pin of it lives, and new ones are made before it.

use compressor::rest::{Buffer, Pins, Space};
use compressor::{Edition, Refusal, Shape, Value};

const FOUR: Edition = Edition::Four;
const ROOM: usize = 1 << 14;

fn header(refs: u32, data: u32) -> u64 {
    Shape { refs, weak: 0, data, tag: 3 }.header(FOUR).expect("a shape of edition four")
}

fn space() -> Space<'static> {
    Space::new(FOUR, vec![0; ROOM].into(), 0)
}

fn made(space: &Space<'_>, buffer: &mut Buffer, refs: u32, data: u32) -> Value {
    space.alloc(buffer, header(refs, data)).expect("room")
}

#[test]
fn a_pinned_object_stays_while_its_pin_lives() {
    let (mut space, mut buffer, pins) = (space(), Buffer::default(), Pins::default());
    made(&space, &mut buffer, 2, 0);
    let (held, other) = (made(&space, &mut buffer, 1, 4), made(&space, &mut buffer, 0, 2));
    space.store(held, 0, other);
    let pin = pins.pin(held);
    pin.data(&mut space).copy_from_slice(&[5, 6, 7, 8]);
    let address = pin.data(&mut space).as_ptr();
    assert_eq!(space.collect_pinned(&pins, &mut []), Ok(9));
    assert_eq!((space.used(), space.in_runs()), (12, 3));
    assert_eq!((pin.object(), pin.data(&mut space).as_ptr()), (held, address));
    assert_eq!(pin.data(&mut space), [5, 6, 7, 8]);
    assert_eq!(space.shape(space.load(held, 0)).data, 2);
    drop(pin);
    let mut roots = [held];
    assert_eq!(space.collect_pinned(&pins, &mut roots), Ok(9));
    assert_eq!((space.used(), space.in_runs()), (9, 0));
    assert_eq!(roots[0].word() + 3, held.word());
    assert_eq!(space.load_word(roots[0], 4), 8);
    assert_eq!(space.collect_pinned(&pins, &mut []), Ok(0));
}

#[test]
fn an_object_has_several_pins() {
    let (mut space, mut buffer, pins) = (space(), Buffer::default(), Pins::default());
    made(&space, &mut buffer, 2, 0);
    let held = made(&space, &mut buffer, 0, 1);
    let (one, other) = (pins.pin(held), pins.pin(held));
    assert_eq!(pins.count(), 2);
    drop(one);
    assert_eq!(space.collect_pinned(&pins, &mut []), Ok(2));
    assert_eq!(space.object_around(held.word() % (1 << 32)), Some(held));
    drop(other);
    assert_eq!(pins.count(), 0);
}

#[test]
fn new_objects_are_made_in_runs() {
    let (mut space, mut buffer, pins) = (space(), Buffer::default(), Pins::default());
    let all: Vec<Value> = (0..300).map(|_| made(&space, &mut buffer, 1, 8)).collect();
    let kept: Vec<_> = all.iter().skip(49).step_by(50).map(|&it| pins.pin(it)).collect();
    for (n, pin) in (0..).zip(&kept) {
        pin.data(&mut space).fill(n);
    }
    assert_eq!(space.collect_pinned(&pins, &mut []), Ok(60));
    assert_eq!((space.used(), space.in_runs()), (3000, 2940));
    let end = all[299].word();
    let below = (0..280).filter(|_| made(&space, &mut buffer, 1, 8).word() < end).count();
    assert!(below > 270, "{below} of 280 objects were made in runs");
    assert!(space.in_runs() < 200);
    // What was taken is a row of objects, and no word of a pinned object was.
    assert!((0..space.used()).all(|index| space.object_around(index).is_some()));
    for (n, pin) in (0..).zip(&kept) {
        assert!(pin.data(&mut space).iter().all(|word| *word == n));
    }
    // An object that is larger than each run is made behind them.
    assert!(made(&space, &mut buffer, 0, 600).word() > end);
}

#[test]
fn words_in_runs_are_not_used() {
    let (mut space, mut buffer, pins) = (space(), Buffer::default(), Pins::default());
    made(&space, &mut buffer, 0, 9999);
    let pin = pins.pin(made(&space, &mut buffer, 0, 9));
    let live = space.collect_pinned(&pins, &mut []).unwrap();
    assert_eq!((live, space.used()), (10, 10010));
    assert_eq!(space.limit_by(live, 2), Some(ROOM as u64 / 8));
    let mut count = 0;
    while !space.is_due() {
        made(&space, &mut buffer, 0, 9);
        count += 1;
    }
    assert!((150..=210).contains(&count), "{count} objects until it is due");
    assert_eq!(space.used(), 10010);
    drop(pin);
}

#[test]
fn a_pin_of_no_object_is_refused() {
    let (mut space, mut buffer, pins) = (space(), Buffer::default(), Pins::default());
    let held = made(&space, &mut buffer, 0, 1);
    let _one = pins.pin(held);
    for word in [0, held.word() + ROOM as u64] {
        let _bad = pins.pin(Value::of_word(word));
        let refused = space.collect_pinned(&pins, &mut []);
        assert_eq!(refused, Err(Refusal::BadPin { number: 1 }));
    }
    assert_eq!(space.collect_pinned(&pins, &mut []), Ok(2));
}
