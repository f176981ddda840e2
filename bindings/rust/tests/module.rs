//! Each call once, and what it refuses.

use panguhero::{Error, IfEmpty, Mode, Module, Pick, Restored, Step, Ticket};
use std::fs::{self, File, OpenOptions};
use std::io::ErrorKind;
use std::path::PathBuf;

const PROFILE: &[u8] = include_bytes!("../../../examples/tiny.toml");

fn opened() -> Module {
    Module::in_memory(PROFILE).unwrap()
}

#[test]
fn a_write_is_read_and_made_persistent() {
    let mut module = opened();
    let first = module.write(3, &[7; 64]).unwrap();
    assert_eq!((first.number, first.mark), (0, 0));
    assert_eq!(module.read(3).unwrap(), [7; 64]);
    assert_eq!(module.mark().unwrap(), 0);
    assert_eq!(module.persist(0).unwrap(), 1);
    assert_eq!(module.mark().unwrap(), 1);
    assert_eq!(module.accepted().unwrap(), 1);
    assert_eq!(module.persist(1), Err(Error::NoSuchWrite { accepted: 1 }));
}

#[test]
fn a_write_behind_a_save_that_runs_is_made_persistent() {
    let mut module = opened();
    module.write(0, &[1; 64]).unwrap();
    assert_eq!(module.save_step().unwrap(), Step::Stepped);
    let late = module.write(1, &[2; 64]).unwrap();
    assert_eq!(module.persist(late.number).unwrap(), 2);
}

#[test]
fn a_store_is_restored() {
    let mut module = opened();
    let write = module.write(5, &[9; 64]).unwrap();
    module.persist(write.number).unwrap();
    let store = module.store_bytes().unwrap();
    let (mut again, restored) = Module::on_store(PROFILE, &store, IfEmpty::Refuse).unwrap();
    assert!(matches!(restored, Restored::Complete(image) if image.count == 1));
    assert_eq!(again.read(5).unwrap(), [9; 64]);
    assert_eq!(again.write(5, &[8; 64]).unwrap().number, 1);
}

#[test]
fn an_empty_store_is_formatted_where_that_is_wanted() {
    let size = opened().store_length().unwrap();
    let empty = vec![0; size];
    assert_eq!(Module::on_store(PROFILE, &empty, IfEmpty::Refuse).err(), Some(Error::NoImage));
    let (mut module, _) = Module::on_store(PROFILE, &empty, IfEmpty::Format).unwrap();
    assert_eq!(module.accepted().unwrap(), 0);
    assert_eq!(
        Module::on_store(PROFILE, &empty[1..], IfEmpty::Format).err(),
        Some(Error::Size { wanted: size as u64 })
    );
}

#[test]
fn an_armed_module_saves_on_a_loss() {
    let mut module = opened();
    assert!(matches!(module.arm(), Err(Error::NeedEnergy { has: 0, .. })));
    assert_eq!(module.set_energy(100_000).unwrap(), 100_000);
    module.arm().unwrap();
    assert_eq!(module.mode().unwrap(), Mode::Armed);
    let write = module.write(1, &[4; 64]).unwrap();
    assert_eq!((write.number, write.mark), (0, 1));
    assert_eq!(module.power_loss().unwrap().count, 1);
    assert_eq!(module.mode().unwrap(), Mode::Saved);
    assert_eq!(module.write(1, &[4; 64]), Err(Error::Closed));
    let left = module.stopped(Pick::Old).unwrap();
    let (mut again, restored) = Module::on_store(PROFILE, &left, IfEmpty::Refuse).unwrap();
    assert!(matches!(restored, Restored::Complete(image) if image.count == 1));
    assert_eq!(again.read(1).unwrap(), [4; 64]);
}

#[test]
fn an_unarmed_module_loses_what_was_not_saved() {
    let mut module = opened();
    module.write(1, &[4; 64]).unwrap();
    assert_eq!(module.power_loss(), Err(Error::Unsaved));
}

#[test]
fn a_full_queue_is_worked() {
    let mut module = opened();
    for count in 0..100 {
        while module.write(0, &[count; 64]) == Err(Error::Full) {
            assert!(module.work().unwrap() > 0);
        }
    }
    assert_eq!(module.accepted().unwrap(), 100);
    assert_eq!(module.read(0).unwrap(), [99; 64]);
}

#[test]
fn a_ticket_of_no_read_is_refused() {
    let mut module = opened();
    for channel in [0, 1, u64::MAX] {
        assert_eq!(module.collect(Ticket { channel, number: 0 }), Err(Error::NoSuchRead));
    }
}

#[test]
fn a_device_goes_dark() {
    let mut module = opened();
    module.write(0, &[1; 64]).unwrap();
    module.stop_after(2).unwrap();
    assert!(module.persist(0).is_err());
    let left = module.stopped(Pick::Torn(0x5a)).unwrap();
    let (mut again, restored) = Module::on_store(PROFILE, &left, IfEmpty::Refuse).unwrap();
    assert!(matches!(restored, Restored::Complete(image) if image.count == 0));
    assert_eq!(again.read(0).unwrap(), [0; 64]);
}

#[test]
fn refusals_have_words() {
    let mut module = opened();
    let lines = module.lines().unwrap();
    let error = module.write(lines, &[0; 64]).unwrap_err();
    assert_eq!(error, Error::NoSuchLine);
    assert_eq!(error.to_string(), "there is no such line");
    assert_eq!(Module::in_memory(b"no profile").err(), Some(Error::NoProfile));
    let words = Error::NeedEnergy { need: 5, has: 2 }.to_string();
    assert_eq!(words, "the energy is too low to arm: it needs 5 and has 2");
}

#[test]
fn many_modules_are_opened_and_dropped() {
    for _ in 0..1000 {
        drop(opened());
    }
}

// A file of its own, open for both, and with nothing in it.
fn empty_file(name: &str) -> (PathBuf, File) {
    let path = PathBuf::from(env!("CARGO_TARGET_TMPDIR")).join(name);
    let _ = fs::remove_file(&path);
    let file = OpenOptions::new()
        .read(true)
        .write(true)
        .create(true)
        .truncate(true)
        .open(&path)
        .unwrap();
    (path, file)
}

#[test]
fn a_file_is_restored() {
    let (path, file) = empty_file("store");
    let wanted = opened().store_length().unwrap() as u64;
    assert_eq!(
        Module::on_file(PROFILE, file.try_clone().unwrap(), IfEmpty::Refuse).err(),
        Some(Error::Size { wanted })
    );
    let (mut module, restored) = Module::on_file(PROFILE, file, IfEmpty::Format).unwrap();
    assert!(matches!(restored, Restored::Complete(image) if image.count == 0));
    let write = module.write(5, &[9; 64]).unwrap();
    module.persist(write.number).unwrap();
    module.write(6, &[1; 64]).unwrap();
    assert_eq!(module.store_bytes().err(), Some(Error::InFile));
    drop(module);
    let again = OpenOptions::new().read(true).write(true).open(&path).unwrap();
    let (mut module, restored) = Module::on_file(PROFILE, again, IfEmpty::Refuse).unwrap();
    assert!(matches!(restored, Restored::Complete(image) if image.count == 1));
    assert_eq!(module.read(5).unwrap(), [9; 64]);
    assert_eq!(module.read(6).unwrap(), [0; 64]);
}

#[test]
fn what_is_no_file_for_a_store_is_refused() {
    let wanted = opened().store_length().unwrap() as u64;
    let refused = |file: File, if_empty| Module::on_file(PROFILE, file, if_empty).err();
    let (path, file) = empty_file("other");
    file.set_len(wanted + 1).unwrap();
    assert_eq!(refused(file.try_clone().unwrap(), IfEmpty::Format), Some(Error::Size { wanted }));
    file.set_len(wanted).unwrap();
    // another opening of the file has the lock
    let again = OpenOptions::new().read(true).write(true).open(&path).unwrap();
    assert_eq!(
        refused(again.try_clone().unwrap(), IfEmpty::Format),
        Some(Error::File(ErrorKind::WouldBlock))
    );
    drop(file);
    assert_eq!(refused(again, IfEmpty::Refuse), Some(Error::NoImage));
    // it isn't open for writing, or for reading, or is no regular file
    let unwritten = File::open(&path).unwrap();
    assert!(matches!(refused(unwritten, IfEmpty::Format), Some(Error::File(_))));
    let unread = OpenOptions::new().write(true).open(&path).unwrap();
    assert!(matches!(refused(unread, IfEmpty::Format), Some(Error::File(_))));
    let folder = File::open(env!("CARGO_TARGET_TMPDIR")).unwrap();
    assert_eq!(refused(folder, IfEmpty::Format), Some(Error::File(ErrorKind::InvalidInput)));
    assert_eq!(fs::read(&path).unwrap(), vec![0; wanted as usize]);
}

#[test]
fn a_read_that_waits_is_collected() {
    let mut module = opened();
    module.write(3, &[7; 64]).unwrap();
    // a read of a line whose write waits in its queue has its bytes at once, and one of another line needs a command
    match module.read_within(9, 0) {
        Ok(bytes) => assert_eq!(bytes, [0; 64]),
        Err(Error::ReadWaits(ticket)) => {
            let mut found = module.collect(ticket);
            while matches!(found, Err(Error::ReadWaits(again)) if again == ticket) {
                module.work().unwrap();
                found = module.collect(ticket);
            }
            assert_eq!(found, Ok([0; 64]));
            assert_eq!(module.collect(ticket), Err(Error::NoSuchRead));
        }
        Err(error) => panic!("{error}"),
    }
}
