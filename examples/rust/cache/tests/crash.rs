//! The cache, stopped at each call of its device.

use cache::{Cache, PutError};
use panguhero::{Pick, Restored};

const PROFILE: &[u8] = include_bytes!("../../../../examples/tiny.toml");
const PUTS: [(&[u8], &[u8]); 5] = [(b"red", b"1"), (b"green", b"2"), (b"red", b"3"), (b"blue", b"4"), (b"green", b"5")];

// The value of a key after the first of the puts.
fn value_after(puts: usize, key: &[u8]) -> Option<&'static [u8]> {
    PUTS[..puts].iter().rev().find(|put| put.0 == key).map(|put| put.1)
}

// Puts until the device is dark: how many were answered, and how many were begun.
fn put_all(cache: &mut Cache) -> (usize, usize) {
    for (done, (key, value)) in PUTS.iter().enumerate() {
        if cache.put(key, value).is_err() {
            return (done, done + 1);
        }
    }
    (PUTS.len(), PUTS.len())
}

#[test]
fn an_answered_put_is_there_whatever_stops_the_machine() {
    let mut whole = false;
    let mut stops = 0;
    for calls in 0..10_000 {
        for pick in [Pick::Old, Pick::New, Pick::Torn(0xa5), Pick::Torn(0)] {
            let mut cache = Cache::new(PROFILE).unwrap();
            cache.stop_after(calls).unwrap();
            let (answered, begun) = put_all(&mut cache);
            let left = cache.stopped(pick).unwrap();
            let (mut found, restored) = Cache::open(PROFILE, &left).unwrap();
            assert!(matches!(restored, Restored::Complete(_)), "at call {calls}: {restored:?}");
            // the cache after a first part of the puts, which has each that was answered
            let is_after = |found: &mut Cache, puts: usize| {
                [&b"red"[..], b"green", b"blue"]
                    .iter()
                    .all(|key| found.get(key).unwrap().as_deref() == value_after(puts, key))
            };
            assert!(
                (answered..=begun).any(|puts| is_after(&mut found, puts)),
                "at call {calls}, {pick:?}: {answered} were answered"
            );
            whole = answered == PUTS.len();
            stops += 1;
        }
        if whole {
            break;
        }
    }
    assert!(whole && stops > 100, "{stops} stops");
    println!("{stops} stops");
}

#[test]
fn what_is_no_entry_is_refused() {
    let mut cache = Cache::new(PROFILE).unwrap();
    assert_eq!(cache.put(b"", b"1"), Err(PutError::Length));
    assert_eq!(cache.put(&[1; 40], &[2; 23]), Err(PutError::Length));
    cache.put(&[1; 40], &[2; 22]).unwrap();
    assert_eq!(cache.get(&[1; 40]).unwrap(), Some(vec![2; 22]));
    assert_eq!(cache.get(b"none").unwrap(), None);
}
