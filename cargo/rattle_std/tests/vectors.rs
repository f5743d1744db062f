//! Vectors, text, boxes, deques, maps and vectors in place, against Rust's own.

use rattle_std::alloc::{AllocError, AllocFailed, Global};
use rattle_std::arrayvec::{ArrayVec, CapacityError};
use rattle_std::boxed::{self, Box};
use rattle_std::collections::{BTreeMap, VecDeque};
use rattle_std::string::String;
use rattle_std::sync::Arc;
use rattle_std::vec::{SliceWith, Vec};
use rattle_std::{format_in, vec_in};
use std::cmp::Reverse;
use std::io::Write;
use std::rc::Rc;

// Numbers that look random: a splitmix64 generator.
struct Random(u64);

impl Random {
    fn below(&mut self, bound: usize) -> usize {
        self.0 = self.0.wrapping_add(0x9e37_79b9_7f4a_7c15);
        let mut mixed = (self.0 ^ (self.0 >> 30)).wrapping_mul(0xbf58_476d_1ce4_e5b9);
        mixed = (mixed ^ (mixed >> 27)).wrapping_mul(0x94d0_49bb_1331_11eb);
        (mixed ^ (mixed >> 31)) as usize % bound
    }
}

fn change(ours: &mut Vec<u32>, theirs: &mut std::vec::Vec<u32>, random: &mut Random) {
    let (item, len) = (random.below(100) as u32, theirs.len());
    match random.below(11) {
        0 | 1 => {
            assert!(ours.push(item).is_ok());
            theirs.push(item);
        }
        3 if len > 0 => {
            let place = random.below(len);
            assert_eq!(ours.remove(place), theirs.remove(place));
        }
        4 => assert_eq!(ours.pop(), theirs.pop()),
        5 if len > 0 => assert_eq!(Some(ours.take_last()), theirs.pop()),
        6 => {
            let more = theirs[random.below(len + 1)..].to_vec();
            assert!(ours.extend_from_slice(&more).is_ok());
            theirs.extend(more);
        }
        7 => {
            let len = random.below(2 * len + 2);
            assert!(ours.resize(len, item).is_ok());
            theirs.resize(len, item);
        }
        8 => {
            let len = random.below(len + 3);
            ours.truncate(len);
            theirs.truncate(len);
        }
        9 => {
            let mut more = Vec::from_slice(Global, &theirs[..len / 2]).unwrap();
            assert!(ours.append(&mut more).is_ok());
            assert!(more.is_empty());
            theirs.extend_from_within(..len / 2);
        }
        _ => {
            let more = random.below(20);
            assert!(ours.reserve(more).is_ok() && ours.capacity() >= len + more);
            (0..more).for_each(|_| ours.push_reserved(item));
            theirs.extend(std::iter::repeat_n(item, more));
        }
    }
    if random.below(50) == 0 || theirs.len() > 2_000 {
        ours.clear();
        theirs.clear();
    }
}

#[test]
fn vector_is_rusts_own() {
    let random = &mut Random(1);
    for _ in 0..200 {
        let (mut ours, mut theirs) = (Vec::new(Global), std::vec::Vec::new());
        for _ in 0..300 {
            change(&mut ours, &mut theirs, random);
            assert_eq!(ours.as_slice(), theirs);
        }
        assert!(ours.iter().eq(&theirs) && (&ours).into_iter().eq(&theirs));
        ours.as_mut_slice().iter_mut().for_each(|item| *item += 1);
        ours.iter_mut().for_each(|item| *item -= 1);
        assert_eq!(ours.to_vec_with(Global).unwrap(), ours);
        assert_eq!(ours.into_iter().collect::<std::vec::Vec<_>>(), theirs);
    }
}

#[test]
fn vectors_are_made_of_items() {
    assert_eq!(Vec::from_elem(Global, 7, 3).unwrap().as_slice(), [7, 7, 7]);
    assert_eq!(vec_in!(in Global; 7; 2).unwrap().as_slice(), [7, 7]);
    assert_eq!(Vec::from_elem(Global, 7, 0).unwrap().as_slice(), [0; 0]);
    let made: Vec<u8> = vec![1, 2].into();
    assert_eq!((made.as_ref(), made.len()), (&[1, 2][..], 2));
    assert_eq!(made.into_std(), [1, 2]);
    let mut written: Vec<u8> = Vec::with_capacity(Global, 2).unwrap();
    assert!(written.write_all(b"abc").is_ok() && written.flush().is_ok());
    assert_eq!(written.as_slice(), b"abc");
}

/// An amount of memory that no machine has is refused, and nothing changes.
#[test]
fn memory_beyond_the_machine_is_refused() {
    let much = usize::MAX / 2;
    let mut numbers: Vec<u64> = vec![1].into();
    assert_eq!(
        (numbers.reserve(much), numbers.reserve_exact(much)),
        (Err(AllocError), Err(AllocError))
    );
    assert_eq!(numbers.resize(much, 0), Err(AllocError));
    assert_eq!(numbers.as_slice(), [1]);
    assert_eq!(Vec::<u64>::with_capacity(Global, much).err(), Some(AllocError));
    assert_eq!(Vec::from_elem(Global, 0_u64, much).err(), Some(AllocError));
    assert_eq!(String::with_capacity(Global, usize::MAX).err(), Some(AllocError));
    assert_eq!(VecDeque::<u64>::new(Global).reserve(much), Err(AllocError));
    assert_eq!(AllocError::from(AllocFailed { value: 1 }), AllocError);
    assert_eq!(std::io::Error::from(AllocError).kind(), std::io::ErrorKind::OutOfMemory);
    assert_eq!(
        std::io::Error::from(AllocFailed { value: 1 }).kind(),
        std::io::ErrorKind::OutOfMemory
    );
}

#[test]
fn sorting_keeps_the_order_of_equal_keys() {
    let random = &mut Random(2);
    for count in [0, 1, 2, 20, 21, 50, 1_000] {
        let mut items: Vec<(usize, usize)> = (0..count)
            .map(|place| (random.below(1 + count / 4), place))
            .collect::<std::vec::Vec<_>>()
            .into();
        let mut expected = items.to_vec();
        expected.sort();
        assert_eq!(items.sort_by_key_with(Global, |item| item.0), Ok(()));
        assert_eq!(items.as_slice(), expected);
        expected.sort_by_key(|item| (Reverse(item.0), item.1));
        assert_eq!(items.sort_by(|left, right| right.0.cmp(&left.0)), Ok(()));
        assert_eq!(items.as_slice(), expected);
    }
}

#[test]
fn text_is_rusts_own() {
    let mut text = String::new(Global);
    for character in ['a', 'é', '€', '\u{1f600}', '\0'] {
        assert!(text.push(character).is_ok());
    }
    assert!(
        text.push_str("end").is_ok() && text.write_fmt(format_args!("{:>4}|{}", 7, -1)).is_ok()
    );
    assert_eq!(text.as_str(), "aé€\u{1f600}\0end   7|-1");
    assert_eq!(
        format!(
            "{:>3}|{:<3}|",
            String::from("a".to_owned()) as String,
            String::from("b".to_owned()) as String
        ),
        "  a|b  |"
    );
    assert_eq!(format_in!(in Global; "{}-{}", 1, 2).unwrap().as_str(), "1-2");
    assert_eq!((text.len(), text.starts_with("aé")), (text.as_str().len(), true));
}

/// A format that fails is an error, and nothing else is.
#[test]
fn format_that_fails_is_an_error() {
    struct Fails;

    impl std::fmt::Display for Fails {
        fn fmt(&self, _: &mut std::fmt::Formatter<'_>) -> std::fmt::Result {
            Err(std::fmt::Error)
        }
    }

    assert_eq!(format_in!(in Global; "a{}", Fails).err(), Some(AllocError));
}

#[test]
fn boxes_go_to_raw_and_back() {
    let counted = Rc::new(5);
    let mut boxed = Box::new(Global, Rc::clone(&counted)).ok().unwrap();
    assert_eq!((**boxed, Rc::strong_count(&counted)), (5, 2));
    *boxed = Rc::new(6);
    assert_eq!(Rc::strong_count(&counted), 1);
    *boxed = Rc::clone(&counted);
    let pointer = Box::into_raw(boxed);
    assert_eq!(Rc::strong_count(&counted), 2);
    // SAFETY: the pointer is what `into_raw` returned.
    drop(unsafe { boxed::from_raw!(Global, pointer) as Box<_> });
    assert_eq!(Rc::strong_count(&counted), 1);
    let empty = Box::new(Global, ()).ok().unwrap();
    // SAFETY: as above. A type without bytes takes no memory.
    drop(unsafe { boxed::from_raw!(Global, Box::into_raw(empty)) as Box<_> });
}

#[test]
fn deque_is_rusts_own() {
    let random = &mut Random(3);
    let (mut ours, mut theirs) = (VecDeque::new(Global), std::collections::VecDeque::new());
    for item in 0..20_000 {
        match random.below(6) {
            0 => assert_eq!(ours.pop_front(), theirs.pop_front()),
            1 => {
                assert!(ours.reserve(1).is_ok());
                ours.push_back_reserved(item);
                theirs.push_back(item);
            }
            2 if !theirs.is_empty() => {
                let place = random.below(theirs.len());
                assert_eq!(ours.remove(place), theirs.remove(place));
            }
            3 if random.below(100) == 0 => {
                ours.clear();
                theirs.clear();
            }
            _ => {
                assert!(ours.push_back(item).is_ok());
                theirs.push_back(item);
            }
        }
        assert_eq!(
            (ours.len(), ours.front(), ours.back()),
            (theirs.len(), theirs.front(), theirs.back())
        );
    }
    assert_eq!(*ours, theirs);
}

#[test]
fn map_is_rusts_own() {
    for (proxies, versions, insertions) in [(1, 8, 2), (5, 100, 3), (3, 4_000, 8)] {
        let random = &mut Random(4);
        let (mut ours, mut theirs) = (BTreeMap::new(Global), std::collections::BTreeMap::new());
        for value in 0..40_000 {
            let key = (random.below(proxies), random.below(versions));
            if random.below(insertions) == 0 {
                assert_eq!(ours.remove(&key), theirs.remove(&key));
            } else {
                assert_eq!(ours.insert(key, value), Ok(theirs.insert(key, value)));
            }
            assert_eq!(ours.get(&key), theirs.get(&key));
            assert_eq!(ours.contains_key(&key), theirs.contains_key(&key));
            let keys = key..=(key.0 + 1, random.below(versions));
            assert!(ours.range(keys.clone()).take(400).eq(theirs.range(keys).take(400)));
        }
        assert!(ours.range((0, 0)..=(proxies, 0)).eq(&theirs));
        assert!(ours.iter().eq(&theirs));
    }
}

#[test]
fn map_by_text() {
    let mut counts = BTreeMap::new(Global);
    for text in ["b", "a", "c"] {
        assert_eq!(counts.insert(String::from_str(Global, text).unwrap(), text.len()), Ok(None));
    }
    assert_eq!((counts.get("b"), counts.get("d")), (Some(&1), None));
    assert!(counts.iter().map(|(text, _)| text.as_str()).eq(["a", "b", "c"]));
    assert!(String::from_utf8(vec_in!(in Global; 255; 2).unwrap()).is_err());
}

#[test]
fn map_in_order_is_rusts_own() {
    let (mut ours, mut theirs) = (BTreeMap::new(Global), std::collections::BTreeMap::new());
    assert_eq!(ours.get(&0), None);
    assert_eq!(ours.remove(&0), None);
    assert_eq!(ours.range(0..=9).next(), None);
    for key in (0..3_000).chain((4_000..6_000).rev()) {
        assert_eq!(ours.insert(key, key), Ok(theirs.insert(key, key)));
    }
    assert!(ours.range(0..=6_000).eq(&theirs));
    for key in 0..6_000 {
        assert_eq!(ours.remove(&key), theirs.remove(&key));
        assert!(ours.range(key..=key + 10).eq(theirs.range(key..=key + 10)));
    }
}

#[test]
fn vector_in_place_is_a_vector_of_few() {
    let random = &mut Random(5);
    for _ in 0..300 {
        let (mut ours, mut theirs) = (ArrayVec::<u32, 8>::new(), std::vec::Vec::new());
        for item in 0..50 {
            let count = random.below(5);
            let more = &[item, item + 1, item + 2, item + 3][..count];
            match random.below(4) {
                0 if !ours.is_full() => {
                    ours.push(item);
                    theirs.push(item);
                }
                1 => {
                    let fits = theirs.len() + count <= 8;
                    assert_eq!(
                        ours.try_extend_from_slice(more),
                        if fits { Ok(()) } else { Err(CapacityError) }
                    );
                    theirs.extend_from_slice(if fits { more } else { &[] });
                }
                2 if random.below(4) == 0 => {
                    ours.clear();
                    theirs.clear();
                }
                _ => ours.iter_mut().zip(&mut theirs).for_each(|(one, other)| {
                    *one += 1;
                    *other += 1;
                }),
            }
            assert_eq!(
                (ours.as_slice(), ours.len(), ours.is_full()),
                (theirs.as_slice(), theirs.len(), theirs.len() == 8)
            );
            assert!(
                ours.iter().eq(&theirs)
                    && ours.iter_mut().map(|item| *item).eq(theirs.iter().copied())
            );
        }
        let mut copy = ours;
        copy.clear();
        assert_eq!((ours.as_slice(), copy.as_slice()), (theirs.as_slice(), &[][..]));
    }
}

#[test]
fn shared_values_are_dropped_with_the_last_share() {
    let counted = Rc::new(1);
    let shared = Arc::<_>::new(Global, Rc::clone(&counted)).ok().unwrap();
    let other = Arc::try_clone(&shared).unwrap();
    drop(shared);
    assert_eq!((**other, Rc::strong_count(&counted)), (1, 2));
    drop(other);
    assert_eq!(Rc::strong_count(&counted), 1);
}
