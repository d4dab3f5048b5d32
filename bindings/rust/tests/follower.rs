//! The follower of `examples` at the edges: what it must not pass over in silence.
use gtid_resume::{
    GtidEvent, ResumeSet, ANONYMOUS_GTID_EVENT, EVENT_HEADER_LEN, GTID_EVENT,
    GTID_TAGGED_LOG_EVENT, PREVIOUS_GTIDS_EVENT,
};
use std::fs;

mod common;
use common::{
    follower, gtid, opening, Binlog, Folder, FILE_OPENING, FORMAT_DESCRIPTION, ROTATE, ROW, STOP,
    XID,
};

const WITH_FIVE: [(u8, u64); 1] = [(7, 5)];
const QUERY: u8 = 2;

fn line(gno: u64, rows: &str) -> String {
    format!("{} {rows}\n", GtidEvent::new([7; 16], gno).gtid())
}

fn row(text: &str) -> [String; 1] {
    [text.to_string()]
}

/// A binlog that opens behind transaction 5, with transaction 6.
fn with_six() -> Binlog {
    let mut binlog = Binlog::new(&opening(&WITH_FIVE));
    binlog.transaction(GTID_EVENT, &gtid(6), &row("six"));
    binlog
}

/// The tool's text after a run that must end well.
fn followed(folder: &Folder, binlog: &[u8]) -> String {
    fs::write(folder.file("events"), binlog).unwrap();
    let ended = follower(folder).output().unwrap();
    assert!(ended.status.success(), "{ended:?}");
    fs::read_to_string(folder.file("tool")).unwrap()
}

/// A run must end with status 2 and one line that says this.
fn assert_stops(folder: &Folder, binlog: &[u8], says: &str) {
    fs::write(folder.file("events"), binlog).unwrap();
    let ended = follower(folder).output().unwrap();
    let said = String::from_utf8(ended.stderr).unwrap();
    assert_eq!(ended.status.code(), Some(2), "{said}");
    assert!(said.contains(says), "{said}");
    assert_eq!(said.matches('\n').count(), 1, "{said}");
}

/// Also where its id has come, and only its end hasn't.
#[test]
fn what_is_not_complete_is_left_for_the_next_run() {
    let mut binlog = with_six();
    binlog.transaction(GTID_EVENT, &gtid(7), &row("seven"));
    for (six, both) in with_six().both_forms().iter().zip(binlog.both_forms()) {
        for cut in (six.len()..both.len()).step_by(6) {
            let folder = Folder::new("cut");
            assert_eq!(followed(&folder, &both[..cut]), line(6, "six"));
            let set = ResumeSet::load(folder.file("set")).unwrap();
            assert!(set.contains(&[7; 16], b"", 6) && !set.contains(&[7; 16], b"", 7));
            let lines = line(6, "six") + &line(7, "seven");
            assert_eq!(followed(&folder, &both), lines);
        }
    }
}

/// Each transaction is longer than the longest chunk.
#[test]
fn rows_of_many_chunks_are_put_together() {
    let rows: Vec<_> = (0..40).map(|nth| format!("{nth}-").repeat(77)).collect();
    let mut binlog = Binlog::new(&opening(&WITH_FIVE));
    let mut lines = String::new();
    for gno in 6..9 {
        binlog.transaction(GTID_EVENT, &gtid(gno), &rows);
        lines += &line(gno, &rows.join(" "));
    }
    for form in binlog.both_forms() {
        assert_eq!(followed(&Folder::new("long-rows"), &form), lines);
    }
}

#[test]
fn a_torn_line_is_cut_off() {
    let folder = Folder::new("torn");
    fs::write(folder.file("tool"), line(5, "five") + &line(6, "si")[..41]).unwrap();
    let both = line(5, "five") + &line(6, "six");
    assert_eq!(followed(&folder, &with_six().0), both);
}

#[test]
fn a_transaction_that_the_tool_has_is_not_copied_again() {
    let folder = Folder::new("twice");
    fs::write(folder.file("tool"), line(6, "six")).unwrap();
    assert_eq!(followed(&folder, &with_six().0), line(6, "six"));
    let set = ResumeSet::load(folder.file("set")).unwrap();
    assert!(set.contains(&[7; 16], b"", 6));
}

#[test]
fn rows_stay_on_one_line() {
    let folder = Folder::new("line");
    let mut binlog = Binlog::new(&opening(&WITH_FIVE));
    binlog.transaction(GTID_EVENT, &gtid(6), &row("a\nb\\"));
    assert_eq!(followed(&folder, &binlog.0), line(6, "a\\nb\\\\"));
}

#[test]
fn the_next_file_is_followed_and_a_missing_one_is_seen() {
    let folder = Folder::new("rotation");
    followed(&folder, &with_six().0);
    let mut third = Binlog::new(&opening(&[(7, 7)]));
    third.transaction(GTID_EVENT, &gtid(8), &row("eight"));
    assert_stops(&folder, &third.0, "older file");
    // and the ids that it lists weren't taken over
    let set = ResumeSet::load(folder.file("set")).unwrap();
    assert!(!set.contains(&[7; 16], b"", 7));
    let mut second = Binlog::new(&opening(&[(7, 6)]));
    second.transaction(GTID_EVENT, &gtid(7), &row("seven"));
    second.event(ROTATE, b"the next file's name");
    followed(&folder, &second.with_checksums().0);
    let all = line(6, "six") + &line(7, "seven") + &line(8, "eight");
    assert_eq!(followed(&folder, &third.0), all);
}

#[test]
fn nothing_follows_the_end_of_a_closed_file() {
    let mut closed = with_six();
    closed.event(ROTATE, b"the next file's name");
    let mut transaction = Binlog(closed.0.clone());
    transaction.transaction(GTID_EVENT, &gtid(7), &row("seven"));
    let mut row = Binlog(closed.0.clone());
    row.event(ROW, b"a row");
    for form in 0..2 {
        let [closed, transaction, row] = [&closed, &transaction, &row].map(Binlog::both_forms);
        let folder = Folder::new("closed");
        assert_stops(&folder, &transaction[form], "closes the file");
        assert_stops(&folder, &row[form], "closes the file");
        let torn = &row[form][..closed[form].len() + 1];
        assert_stops(&folder, torn, "refusal 1:");
        assert_eq!(followed(&folder, &closed[form]), line(6, "six"));
    }
}

#[test]
fn a_damaged_set_is_not_gone_on_from() {
    let folder = Folder::new("bad-set");
    fs::write(folder.file("set"), "damaged").unwrap();
    assert_stops(&folder, &with_six().0, "refusal 14");
    assert!(!folder.file("tool").exists());
}

#[test]
fn a_damaged_event_is_not_passed_over() {
    let mut short = with_six();
    short.transaction(GTID_EVENT, &gtid(7)[..24], &row("seven"));
    short.transaction(GTID_EVENT, &gtid(8), &row("eight"));
    // version byte, size 6, last non-ignorable id, and the tag alone
    let mut without_id = with_six();
    without_id.transaction(
        GTID_TAGGED_LOG_EVENT,
        &[2, 12, 0, 6, 2, b'a'],
        &row("seven"),
    );
    without_id.transaction(GTID_EVENT, &gtid(8), &row("eight"));
    let mut nameless = with_six();
    nameless.event(ROW, b"a row of no transaction");
    let mut reopened = with_six();
    reopened.event(PREVIOUS_GTIDS_EVENT, &opening(&[(7, 7)]));
    let mut endless = with_six();
    endless.event(GTID_EVENT, &gtid(7));
    endless.transaction(GTID_EVENT, &gtid(8), &row("eight"));
    let mut headless = with_six();
    headless.event(XID, &[0; 8]);
    let mut last = with_six();
    last.event(GTID_EVENT, &gtid(7));
    last.event(QUERY, b"CREATE TABLE");
    last.event(ROTATE, b"the next file's name");
    let mut anonymous = with_six();
    anonymous.event(ANONYMOUS_GTID_EVENT, &gtid(0));
    anonymous.event(QUERY, b"CREATE TABLE");
    anonymous.event(STOP, b"");
    for (binlog, says) in [
        (short, "refusal 1:"),
        (without_id, "refusal 21:"),
        (nameless, "in no transaction"),
        (reopened, "older file"),
        (endless, "without an end"),
        (last, "without an end"),
        (anonymous, "without an end"),
        (headless, "without one"),
    ] {
        for form in binlog.both_forms() {
            let folder = Folder::new("bad-event");
            assert_stops(&folder, &form, says);
            // and what came before it is there
            let tool = fs::read_to_string(folder.file("tool")).unwrap();
            assert_eq!(tool, line(6, "six"));
            let set = ResumeSet::load(folder.file("set")).unwrap();
            assert_eq!(set, ResumeSet::take_in(&opening(&[(7, 6)])).unwrap());
        }
    }
}

#[test]
fn checksums_are_not_taken_for_rows() {
    let mut described = Binlog::empty();
    described.describe(0);
    described.0.extend(with_six().events());
    for form in [described.0, with_six().with_checksums().0] {
        assert_eq!(followed(&Folder::new("checksums"), &form), line(6, "six"));
    }
    let mut unknown = Binlog::empty();
    unknown.describe(2);
    unknown.0.extend(with_six().events());
    let folder = Folder::new("unknown");
    assert_stops(&folder, &unknown.0, "checksums of an unknown kind");
    assert!(!folder.file("tool").exists());
}

#[test]
fn an_error_names_its_file() {
    let folder = Folder::new("set-folder");
    fs::create_dir(folder.file("set")).unwrap();
    let name = folder.file("set").display().to_string();
    assert_stops(&folder, &with_six().0, &name);
}

#[test]
fn what_is_no_binlog_is_an_error() {
    let mut small = with_six();
    small.event(ROW, b"");
    let size = small.0.len() - EVENT_HEADER_LEN + 9;
    small.0[size] = EVENT_HEADER_LEN as u8 - 1;
    let mut unopened = Binlog::empty();
    unopened.transaction(GTID_EVENT, &gtid(6), &row("six"));
    let mut rows = Binlog::empty();
    rows.event(ROW, b"a row");
    let mut short = Binlog::empty();
    short.event(FORMAT_DESCRIPTION, b"4"); // too short to tell of checksums
    for (bytes, says) in [
        (b"text".to_vec(), "no binlog"),
        (FILE_OPENING[..3].to_vec(), "no opening event"),
        (FILE_OPENING.to_vec(), "no opening event"),
        (unopened.0, "no opening event"),
        (rows.0, "no opening event"),
        (short.0, "no opening event"),
    ] {
        let folder = Folder::new("no-binlog");
        assert_stops(&folder, &bytes, says);
        assert!(!folder.file("tool").exists());
    }
    assert_stops(&Folder::new("small"), &small.0, "refusal 18:");
    let folder = Folder::new("no-file");
    let ended = follower(&folder).output().unwrap();
    assert_eq!(ended.status.code(), Some(2));
    let name = folder.file("events").display().to_string();
    assert!(String::from_utf8(ended.stderr).unwrap().contains(&name));
}
