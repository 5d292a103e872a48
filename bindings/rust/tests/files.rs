//! Files of docs/FORMATS.md are judged for a heap.

use compressor::flipped::Audit;
use compressor::{Edition, Heap, Refusal, Shape, Value, TO_SPACE};

const ONE: Edition = Edition::One;

fn header() -> u64 {
    Shape { refs: 1, weak: 0, data: 1, tag: 3 }.header(ONE).expect("a shape of edition one")
}

/// An object that is marked, with a reference to itself and the number 7, behind one that is not.
fn heap() -> Heap {
    let words = [0, header(), Value::at(1).word(), 7];
    Heap::by_marks(ONE, &words, &[1], &[Value::at(1)]).unwrap()
}

/// The bytes of a file: its name, numbers of 4 bytes, and numbers of 8.
fn file(magic: &str, short: &[u32], long: &[u64]) -> Vec<u8> {
    let mut bytes = magic.as_bytes().to_vec();
    bytes.extend(short.iter().flat_map(|it| it.to_le_bytes()));
    bytes.extend(long.iter().flat_map(|it| it.to_le_bytes()));
    bytes
}

#[test]
fn an_image_has_the_bytes_of_the_format() {
    assert_eq!(header(), 1 | 1 << 16 | 3 << 32);
    let mut wanted = file("COMPHEAP", &[1, 4, 1, 1], &[0, header(), Value::at(1).word(), 7]);
    wanted.extend(file("", &[1], &[Value::at(1).word()]));
    assert_eq!(heap().write(), Ok(wanted.clone()));
    let mut read = Heap::read(&wanted).unwrap();
    assert_eq!(read.facts(), heap().facts());
    assert_eq!((read.facts().words, read.facts().marked, read.facts().edition), (4, 1, 1));
}

#[test]
fn what_another_collector_left_is_judged() {
    // The object moved to index 2: one mark, one root and five words; its place and, as 8 bytes, the rest.
    let moved = |number| {
        let at = TO_SPACE + 2;
        file("COMPMOVE", &[1, 1, 1, 5, 2], &[at, 0, 0, header(), at, number])
    };
    assert_eq!(heap().judge(&moved(7)), Ok(3));
    let wrong = heap().judge(&moved(8));
    assert_eq!(wrong, Err(Refusal::MovedWrongWord { object: 0, word: 2 }));
    assert_eq!(heap().judge(&moved(7)[1..]), Err(Refusal::FileBadMagic));
}

#[test]
fn words_are_audited_and_explained() {
    let words = Audit { words: true, ..Audit::default() };
    let slid = |number| file("COMPWORD", &[1, 3, 1], &[TO_SPACE, header(), TO_SPACE, number]);
    let mut plan = heap().plan().unwrap();
    assert_eq!(plan.audit(&slid(7), words), Ok(3));
    assert_eq!(plan.explain(&slid(7), words), Ok(None));
    let wrong = plan.audit(&slid(8), words);
    assert_eq!(wrong, Err(Refusal::WrongWord { address: TO_SPACE + 2 }));
    let said = plan.explain(&slid(8), words).unwrap().expect("a fault");
    assert!(said.starts_with("page 0 offset 2 has 8, not 7"), "{said}");
    assert!(!said.ends_with('\n'), "{said}");
}
