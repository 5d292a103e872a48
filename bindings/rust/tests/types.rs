//! What types promise; that a handle is not shared or cloned doc tests in src/handle.rs say.

use compressor::rest::{
    Buffer, Cards, Growing, Job, Lane, Looks, Marking, OldTables, Pages, Space, Survey, Tables,
};
use compressor::{
    Address, Crew, Edition, End, Heap, Mutator, Plan, Refusal, Refused, Shape, Value,
};

fn is_sent<T: Send>() {}
fn is_shared<T: Send + Sync>() {}

#[test]
fn handles_go_to_other_threads() {
    is_sent::<Heap>();
    is_sent::<Plan>();
    is_sent::<Crew>();
    is_sent::<Mutator>();
    is_sent::<End>();
    is_sent::<Survey>();
    is_sent::<Tables>();
    is_sent::<Growing<'_>>();
    is_sent::<OldTables>();
    is_sent::<Job>();
    is_sent::<Marking>();
    is_sent::<Looks>();
    is_sent::<Lane>();
    is_sent::<Pages>();
    is_sent::<Refused<Crew>>();
    is_sent::<Buffer>();
    is_shared::<Space>();
    is_shared::<Cards>();
    is_shared::<Value>();
    is_shared::<Address>();
    is_shared::<Refusal>();
}

#[test]
fn small_immediates() {
    let (least, most) = (-(1 << 59), (1 << 59) - 1);
    for kind in 0..8 {
        for number in [least, -1, 0, 1, 0x0123_4567_89ab_cdef, most] {
            let value = Value::small(kind, number).unwrap();
            assert!(value.is_immediate() && !value.is_reference() && !value.is_null());
            assert_eq!(value.as_small(), Some((kind, number)));
            assert_eq!(value.as_fixnum(), (kind == 0).then_some(number));
            assert_eq!((value.address(), value.rested()), (None, value));
        }
        assert_eq!(Value::small(kind, least - 1).or(Value::small(kind, most + 1)), None);
    }
    assert_eq!(Value::small(8, 0), None);
    assert_eq!(Value::at(7).as_small().or(Value::NULL.as_small()), None);
    assert_eq!(Value::fixnum(-1).unwrap().word(), u64::MAX - 7);
}

#[test]
fn fixnums_are_added_where_the_sum_fits() {
    let (least, most) = (-(1 << 59), (1 << 59) - 1);
    let fixnum = |number| Value::fixnum(number).unwrap();
    for a in [least, least + 1, -7, -1, 0, 1, 7, most - 1, most] {
        for b in [least, -1, 0, 1, most] {
            assert_eq!(fixnum(a).fixnum_add(fixnum(b)), Value::fixnum(a + b));
        }
        for other in [Value::NULL, Value::at(0), Value::small(1, 0).unwrap()] {
            assert_eq!(fixnum(a).fixnum_add(other), None);
            assert_eq!(other.fixnum_add(fixnum(a)), None);
        }
    }
    assert_eq!(fixnum(most).fixnum_add(fixnum(1)), None);
}

#[test]
fn addresses_are_in_to_space() {
    assert_eq!(Value::at(0).address(), None);
    let first = Value::of_word(compressor::TO_SPACE).address().unwrap();
    assert_eq!((first.index(), Value::from(first).rested()), (0, Value::at(0)));
    assert_eq!(Value::of_word(compressor::TO_SPACE - 1).address(), None);
    assert_eq!(Value::of_word(compressor::TO_SPACE + (1 << 31)).address(), None);
    assert_eq!(Value::from(None), Value::NULL);
}

#[test]
fn headers_say_their_shapes() {
    let editions = [Edition::One, Edition::Two, Edition::Three, Edition::Four];
    let counts = [0, 1, 65535, 65536, (1 << 17) - 1, 1 << 17, i32::MAX as u32, 1 << 31];
    for edition in editions {
        let mut headers = 0;
        for (refs, weak) in counts.into_iter().flat_map(|it| counts.map(|other| (it, other))) {
            for (data, tag) in counts.map(|it| (it, 5)) {
                let shape = Shape { refs, weak, data, tag };
                if let Some(header) = shape.header(edition) {
                    headers += 1;
                    assert_eq!(Shape::of(edition, header), shape);
                }
                assert_eq!(
                    shape.words(),
                    1 + [refs, weak, data].map(u64::from).iter().sum::<u64>()
                );
            }
        }
        // 9 with counts below 65,536 and no weak word, 27 with one, and 26, 10 and 24 more by forms of a large count.
        assert_eq!(headers, [9, 27, 87, 87][edition as usize - 1]);
        let tagged = |tag| Shape { tag, ..Shape::default() }.header(edition);
        assert_eq!(Shape::of(edition, tagged(edition.max_tag()).unwrap()).tag, edition.max_tag());
        assert_eq!(edition.max_tag().checked_add(1).and_then(tagged), None);
    }
}
