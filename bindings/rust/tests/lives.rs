//! Whole lives with no module that stays.

use panguhero::lives::{format, live, restore, store_length, Event};
use panguhero::{Error, IfEmpty, Image, Module, Restored};

const PROFILE: &[u8] = include_bytes!("../../../examples/tiny.toml");

fn formatted() -> Vec<u8> {
    let mut store = vec![0xee; store_length(PROFILE).unwrap()];
    format(PROFILE, &mut store).unwrap();
    store
}

#[test]
fn a_formatted_store_has_zero_lines() {
    let memory = restore(PROFILE, &formatted()).unwrap();
    assert_eq!(memory.restored, Restored::Complete(Image { generation: 1, count: 0 }));
    assert!(!memory.lines.is_empty() && memory.lines.iter().all(|line| *line == [0; 64]));
}

#[test]
fn an_armed_life_saves_at_its_loss() {
    let mut store = formatted();
    let events = [
        Event::Arm,
        Event::Sense,
        Event::Write(3, [7; 64]),
        Event::Read(3),
        Event::Work(0),
        Event::Write(9, [8; 64]),
        Event::Lose,
        Event::Write(9, [9; 64]),
    ];
    let answers = live(PROFILE, &mut store, 100_000, &events).unwrap();
    assert_eq!(answers.len(), events.len());
    let second = answers[5].unwrap();
    assert_eq!((second.first, second.second), (1, 2));
    assert_eq!(answers[3].unwrap().bytes, [7; 64]);
    assert_eq!(answers[7], Err(Error::Closed));
    let memory = restore(PROFILE, &store).unwrap();
    assert!(matches!(memory.restored, Restored::Complete(image) if image.count == 2));
    assert_eq!((memory.lines[3], memory.lines[9]), ([7; 64], [8; 64]));
    // a module on the same bytes has them too
    let (mut module, _) = Module::on_store(PROFILE, &store, IfEmpty::Refuse).unwrap();
    assert_eq!(module.read(9).unwrap(), [8; 64]);
}

#[test]
fn what_is_refused_changes_nothing() {
    let mut store = formatted();
    let before = store.clone();
    let wrong = [Event::Arm, Event::Work(1 << 40)];
    assert_eq!(live(PROFILE, &mut store, 0, &wrong).err(), Some(Error::NoEvent { number: 1 }));
    assert_eq!(live(b"[", &mut store, 0, &wrong).err(), Some(Error::NoProfile));
    let wanted = store.len() as u64;
    assert_eq!(live(PROFILE, &mut store[1..], 0, &[]).err(), Some(Error::Size { wanted }));
    assert_eq!(format(PROFILE, &mut store[1..]), Err(Error::Size { wanted }));
    assert_eq!(store, before);
    let mut empty = vec![0; store.len()];
    assert_eq!(live(PROFILE, &mut empty, 0, &[Event::Arm]).err(), Some(Error::NoImage));
    assert_eq!(restore(PROFILE, &empty).err(), Some(Error::NoImage));
    assert_eq!(restore(PROFILE, &store[1..]).err(), Some(Error::Size { wanted }));
}
