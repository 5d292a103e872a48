//! Refusals have their numbers, and what was handed in comes back.

use compressor::flipped::Audit;
use compressor::rest::{Space, Survey};
use compressor::{Address, Crew, Edition, Heap, Mutator, Refusal, Shape, Value};

const ONE: Edition = Edition::One;

fn header(refs: u32, data: u32) -> u64 {
    Shape { refs, weak: 0, data, tag: 0 }.header(ONE).expect("a shape of edition one")
}

/// A heap of an object of one reference and one data word, and a crew of two mutators with a fresh page each.
fn heap() -> Heap {
    Heap::by_roots(ONE, &[header(1, 1), 0, 3], &[Value::at(0)]).unwrap()
}

fn crew() -> Crew {
    heap().plan().unwrap().flip(2, 2).unwrap()
}

fn object(own: &mut Mutator) -> Address {
    own.root(0).unwrap().address().unwrap()
}

#[test]
fn heaps_that_are_none() {
    let words = [header(1, 1), 0, 3];
    let refused = |words: &[u64], roots: &[Value]| Heap::by_roots(ONE, words, roots).unwrap_err();
    assert_eq!(refused(&words[..2], &[]), Refusal::ObjectPastEnd { index: 0 });
    assert_eq!(refused(&[header(1024, 0)], &[]), Refusal::ObjectTooLong { index: 0 });
    assert_eq!(refused(&words, &[Value::NULL, Value::at(1)]), Refusal::BadRoot { number: 1 });
    let immediate = [Value::fixnum(1).unwrap()];
    assert_eq!(refused(&words, &immediate), Refusal::BadRoot { number: 0 });
    let astray = [header(1, 1), Value::at(2).word(), 3];
    let refused = Heap::by_roots(ONE, &astray, &[Value::at(0)]).unwrap_err();
    assert_eq!(refused, Refusal::UnmarkedTarget { index: 1 });
    let marked = |marks: &[u32]| Heap::by_marks(ONE, &words, marks, &[]).unwrap_err();
    assert_eq!(marked(&[1]), Refusal::MarkNotStart { index: 1 });
    assert_eq!(marked(&[0, 0]), Refusal::MarksNotRising { mark: 0 });
    assert_eq!(Heap::read(&[]).unwrap_err(), Refusal::ImageTruncated);
    assert_eq!(Heap::read(&[1; 8]).unwrap_err(), Refusal::ImageBadMagic);
    let mut image = heap().write().unwrap();
    image.push(0);
    assert_eq!(Heap::read(&image).unwrap_err(), Refusal::ImageTrailing);
    assert_eq!(heap().judge(&[]), Err(Refusal::FileTruncated));
}

#[test]
fn surveys_of_no_heap() {
    let survey = |words: &[u64], roots: &[Value]| Survey::by_roots(ONE, words, roots).unwrap_err();
    let astray = [header(1, 1), Value::at(3).word(), 3];
    assert_eq!(survey(&astray, &[Value::at(0)]), Refusal::BadReference { index: 1 });
    let within = [header(1, 1), Value::at(2).word(), 0];
    assert_eq!(survey(&within, &[Value::at(0)]), Refusal::Overlap { index: 2 });
    let mut space = Space::new(ONE, within.into(), 3);
    let mut roots = [Value::at(0)];
    assert_eq!(space.collect(&mut roots), Err(Refusal::Overlap { index: 2 }));
    assert_eq!((space.words(), roots), (&mut within.to_vec()[..], [Value::at(0)]));
}

#[test]
fn marks_behind_the_words() {
    let words = [header(1, 1), 0, 3];
    for index in [3, 5, 63] {
        let marked = Survey::by_marks(ONE, &words, &[], &[1 << index]);
        assert_eq!(marked.err(), Some(Refusal::ObjectPastEnd { index }));
    }
    let by_bits = |heads, live| Survey::by_bits(Edition::Three, 3, &[], &[heads], &[live]).err();
    assert_eq!(by_bits(1, 7), None);
    assert_eq!(by_bits(1, 7 | 1 << 3), Some(Refusal::ObjectPastEnd { index: 3 }));
    assert_eq!(by_bits(1, 7 | 1 << 5), Some(Refusal::NotARun { index: 5 }));
    assert_eq!(by_bits(1 | 1 << 5, 7), Some(Refusal::NotARun { index: 5 }));
}

#[test]
fn flips_and_plans() {
    let mut plan = heap().plan().unwrap();
    assert_eq!(plan.flip(0, 0).unwrap_err(), Refusal::BadMutators { count: 0 });
    assert_eq!(plan.flip(65, 0).unwrap_err(), Refusal::BadMutators { count: 65 });
    assert_eq!(plan.facts().most_fresh_pages, ONE.max_roots());
    assert_eq!(plan.flip(1, 4097).unwrap_err(), Refusal::TooManyPages { most: 4096 });
    assert_eq!(plan.page(1), Err(Refusal::NoSuchPage { page: 1 }));
    assert_eq!(plan.page(0).map(|it| it[..3].to_vec()), Ok(vec![header(1, 1), 0, 3]));
    assert_eq!(plan.share().unwrap().facts(), plan.facts());
    assert_eq!(plan.audit(&[0], Audit::default()), Err(Refusal::FileTruncated));
    let mut end = {
        let mut crew = plan.flip(1, 0).unwrap();
        let own = crew.take().unwrap();
        crew.give(own).unwrap();
        crew.finish().unwrap()
    };
    let dump = end.write().unwrap();
    assert_eq!(plan.audit(&dump, Audit::default()), Ok(3));
    let whole = Audit { whole: true, ..Audit::default() };
    assert_eq!(plan.audit(&dump, whole), Err(Refusal::PageMissing { page: 0 }));
    assert!(plan.explain(&dump, whole).unwrap().is_some_and(|it| it.contains("page 0")));
}

#[test]
fn calls_of_a_mutator() {
    let mut crew = crew();
    let mut own = crew.take().unwrap();
    let at = object(&mut own);
    let astray = Value::of_word(at.word() + 1).address().unwrap();
    assert_eq!(own.read_ref(astray, 0), Err(Refusal::NotAStart { address: astray.word() }));
    assert_eq!(own.header(astray), Err(Refusal::NotAStart { address: astray.word() }));
    assert_eq!(own.header(at), Ok(header(1, 1)));
    assert_eq!(own.read_ref(at, 1), Err(Refusal::NoSuchField { field: 1 }));
    assert_eq!(own.read_weak(at, 0), Err(Refusal::NoSuchField { field: 0 }));
    assert_eq!(own.write_data(at, 7, 0), Err(Refusal::NoSuchField { field: 7 }));
    let stray = own.write_ref(at, 0, astray);
    assert_eq!(stray, Err(Refusal::NotAStart { address: astray.word() }));
    let immediate = Value::fixnum(0).unwrap();
    let stray = own.write_ref(at, 0, immediate);
    assert_eq!(stray, Err(Refusal::NotAStart { address: immediate.word() }));
    assert_eq!(own.alloc(header(0, 64)), Err(Refusal::ObjectTooLarge { words: 65 }));
    assert_eq!(own.alloc(header(0, 63)).map(|it| it.index()), Ok(128));
    assert_eq!(own.alloc(header(0, 63)), Err(Refusal::OutOfPages));
    assert_eq!(own.touch(3), Err(Refusal::NoSuchPage { page: 3 }));
    assert_eq!(own.touch(0).and(own.touch(0)), Ok(false));
    assert_eq!(own.build(9), Err(Refusal::NoSuchBuild { number: 9 }));
    assert_eq!(own.root(1), Err(Refusal::NoSuchRoot { number: 1 }));
    for stamp in 1..1025 {
        assert_eq!(own.write_ref(at, 0, Some(at)), Ok(stamp));
    }
    assert_eq!(own.write_ref(at, 0, None), Err(Refusal::JournalFull { page: 0 }));
}

#[test]
fn what_was_handed_in_comes_back() {
    let (mut crew, mut other) = (crew(), crew());
    let mut own = crew.take().unwrap();
    let stranger = other.take().unwrap();
    assert_eq!(own.facts().number, 1);

    let refused = crew.give(stranger).unwrap_err();
    assert_eq!(refused.refusal, Refusal::OtherCrew);
    let mut stranger = refused.back;
    assert_eq!(own.meet(&mut stranger), Err(Refusal::OtherCrew));
    other.give(stranger).unwrap();

    let refused = crew.finish().unwrap_err();
    assert_eq!(refused.refusal, Refusal::MutatorMissing { number: 1 });
    let mut crew = refused.back;
    let at = object(&mut own);
    own.write_data(at, 0, 5).unwrap();
    crew.give(own).unwrap();

    let refused = crew.finish().unwrap().next_by_roots(&[Value::at(0)]).unwrap_err();
    assert_eq!(refused.refusal, Refusal::BadRoot { number: 0 });
    let refused = refused.back.next_by_marks(&[1], &[]).unwrap_err();
    assert_eq!(refused.refusal, Refusal::MarkNotStart { index: 1 });
    let mut end = refused.back;
    let short = end.rest(&mut [0; 191], &mut [Value::NULL]);
    assert_eq!(short, Err(Refusal::TooShort { length: 192, which: 0 }));
    let short = end.rest(&mut [0; 192], &mut []);
    assert_eq!(short, Err(Refusal::TooShort { length: 1, which: 1 }));
    assert_eq!(end.page(0).map(|(words, entries)| (words[2], entries)), Ok((5, 1)));
    assert_eq!(end.page(1), Err(Refusal::NotBuilt { page: 1 }));
    assert_eq!(end.page(3), Err(Refusal::NoSuchPage { page: 3 }));
    assert_eq!(end.builds(2), Err(Refusal::NoSuchMutator { number: 2 }));
    assert_eq!(end.build(0, 0), Err(Refusal::NoSuchBuild { number: 0 }));
    let heap = end.next_by_marks(&[0], &[Value::from(at)]).unwrap();
    assert_eq!(heap.plan().unwrap().page(0).unwrap()[2], 5);
}

#[test]
fn what_a_refusal_says() {
    let busy = Refusal::Busy { page: 3 };
    assert_eq!((busy.status(), busy.name()), (1, "BUSY"));
    let entry = Refusal::BadEntry { page: 3, entry: 0 };
    assert_eq!((entry.status(), entry.to_string()), (67, "BAD_ENTRY, page 3, entry 0".to_owned()));
    let finish = || -> Result<(), Refusal> {
        let mut crew = crew();
        let _own = crew.take()?;
        crew.finish()?;
        Ok(())
    };
    assert_eq!(finish().unwrap_err().to_string(), "MUTATOR_MISSING, number 1");
}

#[test]
#[should_panic(expected = "Value(0x0) has no word 0 in this space")]
fn null_has_no_words() {
    Space::new(Edition::Four, [0; 9].into(), 0).load(Value::NULL, 0);
}

#[test]
#[should_panic(expected = "has no word 8 in this space")]
fn a_space_ends_somewhere() {
    let space = Space::new(Edition::Four, [0; 9].into(), 0);
    space.store(Value::at(0), 7, Value::at(8));
    space.store(Value::at(0), 8, Value::at(8));
}
