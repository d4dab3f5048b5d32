//! How much is in a set, and in many: against ids that are counted one by one, and against numbers and texts that are worked out.
use gtid_resume::{
    Counts, Offered, Refusal, Report, ResumeSet, ANONYMOUS_GTID_EVENT, HIGHEST_GNO, LONGEST_REPORT,
    LONGEST_SET, MAX_ENTRIES, MAX_SETS, PREVIOUS_GTIDS_EVENT,
};
use std::collections::BTreeSet;
use std::fs;
use std::path::Path;

mod common;
use common::{
    apart, body, counts, entries, event_of, longest, set, take, Listed, Random, ENTRIES, INTERVALS,
    OF_ENTRY,
};

/// All numbers that an entry can have.
const ALL: (u64, u64) = (1, HIGHEST_GNO + 1);

/// So many entries without tags, with these intervals each.
fn alike(count: usize, intervals: &[(u64, u64)]) -> ResumeSet {
    let one = |number| -> Listed { (number, b"", intervals) };
    set(&Vec::from_iter((0..count as u16).map(one)))
}

/// A set with the numbers of an interval, of one uuid.
fn set_of(first: u64, end: u64) -> ResumeSet {
    alike(1, &[(first, end)])
}

/// The report over some sets; each is told alone as it is counted alone.
fn report_over(sets: &[&ResumeSet]) -> Report {
    let mut report = Report::new();
    for set in sets {
        assert_eq!(report.add(set), Ok(set.totals()));
    }
    report
}

/// The numbers of a line, with the ids in two words.
fn words(counts: Counts) -> String {
    let (high, low) = (counts.ids >> 64, counts.ids % (1 << 64));
    format!("{} {} {high} {low}", counts.entries, counts.intervals)
}

/// A report against what was answered for its sets, and against the sums over them.
fn assert_tells(report: &Report, lines: &[Result<Counts, Refusal>]) {
    let (mut sum, mut text) = (Counts::default(), String::new());
    for line in lines {
        match line {
            Ok(counts) => {
                sum.entries += counts.entries;
                sum.intervals += counts.intervals;
                sum.ids += counts.ids;
                text += &format!("set {}\n", words(*counts));
            }
            Err(refusal) => text += &format!("refused {}\n", refusal.number()),
        }
    }
    text += &format!("sum {}\n", words(sum));
    assert_eq!(report.sum(), sum);
    assert_eq!(report.to_text(), text);
    assert_eq!(report.to_string(), text);
    assert_eq!(format!("{report:?}"), format!("Report({text:?})"));
    assert!(text.len() <= LONGEST_REPORT);
}

// ---- single cases

#[test]
fn a_report_over_no_set() {
    for report in [Report::new(), Report::default()] {
        assert_eq!(report.sum(), Counts::default());
        assert_eq!(report.to_text(), "sum 0 0 0 0\n");
        assert_tells(&report, &[]);
    }
}

#[test]
fn one_set() {
    let report = report_over(&[&set(&[(1, b"", &[(1, 6), (9, 10)])])]);
    assert_eq!(report.to_text(), "set 1 2 0 6\nsum 1 2 0 6\n");
    assert_eq!(report.sum(), counts(1, 2, 6));
    let report = report_over(&[&ResumeSet::empty()]);
    assert_eq!(report.to_text(), "set 0 0 0 0\nsum 0 0 0 0\n");
}

#[test]
fn the_examples_are_reported_as_they_say() {
    let folder = Path::new(env!("CARGO_MANIFEST_DIR")).join("../../examples");
    let mut report = Report::new();
    for name in ["month-a.set", "month-b.set"] {
        let set = ResumeSet::load(folder.join(name)).unwrap();
        report.add(&set).unwrap();
    }
    let text = fs::read_to_string(folder.join("month.txt")).unwrap();
    assert_eq!(report.to_text(), text);
}

/// The same uuid with another tag has ids of its own.
#[test]
fn tags_are_counted_apart() {
    let one: [Listed; 3] = [
        (1, b"", &[(1, 6)]),
        (1, b"bay_2", &[(1, 6)]),
        (2, b"bay_2", &[(5, 6), (7, 9)]),
    ];
    assert_eq!(set(&one).totals(), counts(3, 4, 13));
}

#[test]
fn an_id_in_two_sets_counts_twice() {
    let (first, second) = (set_of(1, 6), set_of(4, 9));
    let report = report_over(&[&first, &second, &first]);
    assert_eq!(
        report.to_text(),
        "set 1 1 0 5\nset 1 1 0 5\nset 1 1 0 5\nsum 3 3 0 15\n"
    );
    assert_eq!(first.union(&second).unwrap().totals(), counts(1, 1, 8));
}

#[test]
fn ids_pass_64_bits() {
    assert_eq!(alike(1, &[ALL]).totals().ids, (1 << 63) - 2);
    assert_eq!(alike(2, &[ALL]).totals().ids, (1 << 64) - 4);
    let three = alike(3, &[ALL]);
    assert_eq!(three.totals(), counts(3, 3, 3 * ((1 << 63) - 2)));
    let mut report = report_over(&[&three]);
    assert_eq!(
        report.to_text(),
        "set 3 3 1 9223372036854775802\nsum 3 3 1 9223372036854775802\n"
    );
    // the low words alone pass 64 bits, too
    report.add(&three).unwrap();
    assert_eq!(report.sum().ids, 6 * ((1 << 63) - 2));
    assert!(report
        .to_text()
        .ends_with("\nsum 6 6 2 18446744073709551604\n"));
}

/// The last number of one word, and the next one.
#[test]
fn sums_carry() {
    let mut report = report_over(&[&alike(2, &[ALL]), &set_of(1, 4)]);
    assert_eq!(report.sum(), counts(3, 3, u128::from(u64::MAX)));
    assert!(report
        .to_text()
        .ends_with("\nsum 3 3 0 18446744073709551615\n"));
    report.add(&set_of(5, 6)).unwrap();
    assert_eq!(report.sum(), counts(4, 4, 1 << 64));
    assert!(report.to_text().ends_with("\nsum 4 4 1 0\n"));
}

/// The fullest sets: by entries, by intervals, by those of one entry, and by bytes.
#[test]
fn full_sets_are_counted() {
    let odd = apart(OF_ENTRY, 1);
    let longest = set(&longest(&odd[..7]));
    assert_eq!(longest.as_bytes().len(), LONGEST_SET);
    assert_eq!(
        longest.totals(),
        counts(ENTRIES, INTERVALS, INTERVALS.into())
    );
    assert_eq!(
        set(&entries(MAX_ENTRIES)).totals(),
        counts(ENTRIES, ENTRIES, ENTRIES.into())
    );
    assert_eq!(
        alike(1, &odd).totals(),
        counts(1, OF_ENTRY, OF_ENTRY.into())
    );
    assert_eq!(
        alike(MAX_ENTRIES, &[ALL]).totals(),
        counts(ENTRIES, ENTRIES, MAX_ENTRIES as u128 * ((1 << 63) - 2))
    );
}

// ---- refused sets

#[test]
fn a_refused_set_adds_nothing() {
    let set = set_of(1, 6);
    let (saved, beyond) = (set.as_bytes(), body(&entries(MAX_ENTRIES + 1)));
    let mut report = Report::new();
    let mut lines = Vec::new();
    for bytes in [saved, &saved[1..], b"", &beyond, &[0; 8], saved] {
        let line = report.add_bytes(bytes);
        let read = ResumeSet::from_bytes(bytes.to_vec());
        assert_eq!(line, read.map(|set| set.totals()));
        lines.push(line);
        assert_tells(&report, &lines);
    }
    assert_eq!(
        report.to_text(),
        "set 1 1 0 5\nrefused 14\nrefused 14\nrefused 14\nset 0 0 0 0\nset 1 1 0 5\nsum 2 2 0 10\n"
    );
}

/// The sixty-fifth set is refused, whatever it is, and the report stays. Those that are refused count.
#[test]
fn the_65th_set_is_refused() {
    let set = set_of(1, 6);
    for refused in [0, 1, MAX_SETS / 2, MAX_SETS - 1, MAX_SETS] {
        let mut report = Report::new();
        let mut lines = Vec::new();
        for i in 0..MAX_SETS {
            let cut = usize::from(i < refused);
            lines.push(report.add_bytes(&set.as_bytes()[cut..]));
            let wanted = if i < refused {
                Err(Refusal::NotASet)
            } else {
                Ok(counts(1, 1, 5))
            };
            assert_eq!(lines[i], wanted);
        }
        for _ in 0..2 {
            assert_eq!(report.add(&set), Err(Refusal::TooLong));
            assert_eq!(
                report.add_bytes(&set.as_bytes()[1..]),
                Err(Refusal::TooLong)
            );
            assert_eq!(report.add_bytes(b""), Err(Refusal::TooLong));
            assert_tells(&report, &lines);
        }
    }
}

// ---- the report's own

#[test]
fn a_copy_is_a_report_of_its_own() {
    let first = report_over(&[&set_of(1, 6)]);
    let mut second = first.clone();
    assert_eq!(second.to_text(), first.to_text());
    second.add(&set_of(1, 2)).unwrap();
    assert_eq!(first.sum(), counts(1, 1, 5));
    assert_eq!(second.sum(), counts(2, 2, 6));
}

/// 384 entries of five intervals, all of the ids but 36 that lie between: every number has its most digits.
#[test]
fn the_longest_report() {
    let five = [(1, 2), (11, 12), (21, 22), (31, 32), (41, ALL.1)];
    let set = alike(MAX_ENTRIES, &five);
    let ids = u128::from(ENTRIES) * ((1 << 63) - 2 - 36);
    assert_eq!(set.totals(), counts(ENTRIES, 5 * ENTRIES, ids));
    let report = report_over(&[&set; MAX_SETS]);
    let sets = MAX_SETS as u64;
    assert_eq!(
        report.sum(),
        counts(sets * ENTRIES, sets * 5 * ENTRIES, u128::from(sets) * ids)
    );
    let text = report.to_text();
    assert_eq!(text.len(), LONGEST_REPORT);
    assert_eq!(text.lines().count(), MAX_SETS + 1);
    assert!(text.starts_with("set 384 1920 191 18446744073709537024\n"));
    assert!(text.ends_with("\nsum 24576 122880 12287 18446744073708617728\n"));
}

// ---- any sets, by offers

/// The number of a uuid, a tag, and a transaction number.
type Id = (u16, &'static [u8], u64);

/// The entries and intervals of these ids, and how many they are.
fn counted(ids: &BTreeSet<Id>) -> Counts {
    let keys: BTreeSet<_> = ids.iter().map(|(number, tag, _)| (number, tag)).collect();
    let starts = ids
        .iter()
        .filter(|(number, tag, gno)| !ids.contains(&(*number, *tag, gno - 1)));
    counts(keys.len() as u64, starts.count() as u64, ids.len() as u128)
}

const TAGS: [&[u8]; 3] = [b"", b"a", b"bay_2"];

fn some_id(random: &mut Random) -> Id {
    let (number, tag) = (random.below(3) as u16, TAGS[random.below(3) as usize]);
    (number, tag, 1 + random.below(30))
}

/// The type and the body of an event with an id.
fn event((number, tag, gno): Id) -> (u8, Vec<u8>) {
    let event = event_of(number, tag, gno);
    (event.event_type(), event.write().unwrap())
}

/// A set by some offers, and its ids.
fn some_set(random: &mut Random) -> (ResumeSet, BTreeSet<Id>) {
    let (mut set, mut ids) = (ResumeSet::empty(), BTreeSet::new());
    for _ in 0..random.below(80) {
        let id = some_id(random);
        let (event_type, body) = event(id);
        let answer = if ids.insert(id) {
            Offered::Taken
        } else {
            Offered::AlreadyThere
        };
        assert_eq!(take(&mut set, event_type, &body), Ok(answer));
    }
    (set, ids)
}

#[test]
fn sets_are_counted_as_their_ids_are() {
    let mut random = Random(13);
    for _ in 0..20 {
        let mut report = Report::new();
        let mut lines = Vec::new();
        for _ in 0..random.below(1 + MAX_SETS as u64) {
            let (set, ids) = some_set(&mut random);
            assert_eq!(set.totals(), counted(&ids));
            if random.below(5) == 0 {
                let line = report.add_bytes(&set.as_bytes()[1..]);
                assert_eq!(line, Err(Refusal::NotASet));
                lines.push(line);
            } else {
                assert_eq!(report.add(&set), Ok(counted(&ids)));
                lines.push(Ok(counted(&ids)));
            }
        }
        assert_tells(&report, &lines);
    }
}

/// An event: with an id, without one, with a number outside its rule, cut, or of a type that isn't offered.
fn some_event(random: &mut Random) -> (u8, Vec<u8>) {
    let id = some_id(random);
    let (event_type, mut body) = event(id);
    match random.below(12) {
        0 => (ANONYMOUS_GTID_EVENT, event((id.0, b"", id.2)).1),
        1 => event((id.0, id.1, 0)),
        2 => event((id.0, id.1, HIGHEST_GNO + 1)),
        3 => {
            body.truncate(20);
            (event_type, body)
        }
        4 => (PREVIOUS_GTIDS_EVENT, body),
        _ => (event_type, body),
    }
}

/// After any offers a set has the ids that it began with, and as many more as were answered "taken".
#[test]
fn ids_grow_by_those_taken() {
    let mut random = Random(17);
    // how often each answer came: taken, already there, no id, refused
    let mut seen = [0; 4];
    for _ in 0..30 {
        let (mut set, _) = some_set(&mut random);
        let (before, mut taken) = (set.totals().ids, 0);
        for _ in 0..100 {
            let (event_type, body) = some_event(&mut random);
            let answer = take(&mut set, event_type, &body);
            taken += u128::from(answer == Ok(Offered::Taken));
            assert_eq!(set.totals().ids, before + taken);
            seen[answer.map_or(3, |answer| answer as usize)] += 1;
        }
    }
    assert!(seen.iter().all(|count| *count > 100), "{seen:?}");
}

/// Also where there is no more room, and beyond 64 bits.
#[test]
fn ids_grow_by_those_taken_in_a_full_set() {
    const BEYOND: u16 = MAX_ENTRIES as u16;
    let mut entries: Vec<Listed> = (0..BEYOND)
        .map(|number| -> Listed { (number, b"", &[ALL]) })
        .collect();
    entries[0].2 = &[(10, HIGHEST_GNO - 10)];
    let mut set = set(&entries);
    let (before, mut taken) = (set.totals().ids, 0);
    for (number, gno) in [
        (0, 1),
        (0, 9),
        (0, 10),
        (0, HIGHEST_GNO),
        (1, 1),
        (BEYOND, 1),
    ] {
        let (event_type, body) = event((number, b"", gno));
        let answer = take(&mut set, event_type, &body);
        taken += u128::from(answer == Ok(Offered::Taken));
        assert_eq!(answer == Err(Refusal::Full), number == BEYOND);
        assert_eq!(set.totals().ids, before + taken);
    }
    assert_eq!(taken, 3);
}
