//! Sets in files.
use gtid_resume::{GtidEvent, Refusal, ResumeSet, GTID_EVENT, LONGEST_SET};
use std::error::Error;
use std::fs::{self, File};
use std::io::{self, ErrorKind};

mod common;
use common::Folder;

fn set_of(gnos: &[u64]) -> ResumeSet {
    let mut set = ResumeSet::empty();
    for gno in gnos {
        let body = GtidEvent::new([7; 16], *gno).write().unwrap();
        set.offer(GTID_EVENT, &body).unwrap().commit();
    }
    set
}

fn assert_damaged(read: io::Result<ResumeSet>) {
    let error = read.unwrap_err();
    assert_eq!(error.kind(), ErrorKind::InvalidData);
    let source = error.source().expect("a refusal");
    assert_eq!(source.downcast_ref(), Some(&Refusal::NotASet));
    assert!(error.to_string().contains("start anew"), "{error}");
}

#[test]
fn a_saved_set_is_loaded() {
    let folder = Folder::new("saved");
    let path = folder.file("set");
    for set in [ResumeSet::empty(), set_of(&[1, 2, 9]), set_of(&[5])] {
        set.save(&path).unwrap();
        assert_eq!(ResumeSet::load(&path).unwrap(), set);
        assert_eq!(fs::read_dir(folder.path()).unwrap().count(), 1);
    }
}

#[test]
fn a_file_left_beside_does_no_harm() {
    let folder = Folder::new("beside");
    let (path, beside) = (folder.file("set"), folder.file("set.new"));
    set_of(&[1]).save(&path).unwrap();
    fs::write(&beside, [9; LONGEST_SET]).unwrap();
    assert_eq!(ResumeSet::load(&path).unwrap(), set_of(&[1]));
    set_of(&[1, 2]).save(&path).unwrap();
    assert_eq!(ResumeSet::load(&path).unwrap(), set_of(&[1, 2]));
    assert!(!beside.exists());
}

#[test]
fn a_missing_file_is_not_found() {
    let folder = Folder::new("missing");
    let error = ResumeSet::load(folder.file("set")).unwrap_err();
    assert_eq!(error.kind(), ErrorKind::NotFound);
    // what was written beside is no saved set
    fs::write(folder.file("set.new"), set_of(&[1]).as_bytes()).unwrap();
    let error = ResumeSet::load(folder.file("set")).unwrap_err();
    assert_eq!(error.kind(), ErrorKind::NotFound);
}

#[test]
fn a_damaged_file_is_refused() {
    let folder = Folder::new("damaged");
    let path = folder.file("set");
    let set = set_of(&[1, 2, 9]);
    for cut in 0..set.as_bytes().len() {
        fs::write(&path, &set.as_bytes()[..cut]).unwrap();
        assert_damaged(ResumeSet::load(&path));
    }
    let longer = [set.as_bytes(), &[0]].concat();
    fs::write(&path, longer).unwrap();
    assert_damaged(ResumeSet::load(&path));
}

#[test]
fn a_file_that_is_too_long_is_not_read_whole() {
    let folder = Folder::new("long");
    let path = folder.file("set");
    // more than the machine's memory
    File::create(&path).unwrap().set_len(1 << 40).unwrap();
    assert_damaged(ResumeSet::load(&path));
}

#[test]
fn what_cannot_be_saved_is_an_error() {
    let folder = Folder::new("nowhere");
    let set = set_of(&[1]);
    let nowhere = folder.file("no/such/folder");
    assert_eq!(set.save(nowhere).unwrap_err().kind(), ErrorKind::NotFound);
    assert_eq!(set.save("/").unwrap_err().kind(), ErrorKind::InvalidInput);
}
