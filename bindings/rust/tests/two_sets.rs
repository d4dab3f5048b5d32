//! Work with two sets, against the same work with sets of ids as Rust's own library has them.
use gtid_resume::{
    list, GtidEvent, Offered, Refusal, ResumeSet, HIGHEST_GNO, LONGEST_SET, MAX_ENTRIES,
    PREVIOUS_GTIDS_EVENT,
};
use std::collections::{BTreeMap, BTreeSet};
use std::ptr;

mod common;
use common::{
    body, entries, longest, set, take, uuid, Listed, Random, ENTRIES, INTERVALS, OF_ENTRY,
};

/// The number of a uuid, a tag, and a transaction number.
type Id<'a> = (u16, &'a [u8], u64);
type Ids<'a> = BTreeSet<Id<'a>>;

/// Where it starts, and the end that isn't reached.
type Interval = (u64, u64);

/// The members of a set, as its entries have them.
fn members(set: &ResumeSet) -> Ids<'_> {
    let mut ids = Ids::new();
    for entry in set.entries() {
        let number = u16::from_be_bytes([entry.uuid()[0], entry.uuid()[1]]);
        assert_eq!(entry.uuid(), &uuid(number));
        for (start, end) in entry.intervals() {
            ids.extend((start..end).map(|gno| (number, entry.tag(), gno)));
        }
    }
    ids
}

/// The bytes of the set with these members.
fn saved(ids: &Ids) -> Vec<u8> {
    let mut entries: BTreeMap<_, Vec<_>> = BTreeMap::new();
    for (number, tag, gno) in ids {
        let intervals = entries.entry((*number, *tag)).or_default();
        match intervals.last_mut() {
            Some((_, end)) if end == gno => *end += 1,
            _ => intervals.push((*gno, gno + 1)),
        }
    }
    let listed = entries
        .iter()
        .map(|((number, tag), all)| (*number, *tag, &all[..]));
    body(&Vec::from_iter(listed))
}

/// The set with these members: taken in, the highest first, each in an entry of its own.
fn set_of(ids: &Ids) -> ResumeSet {
    let falling = || ids.iter().rev();
    let intervals: Vec<_> = falling().map(|id| [(id.2, id.2 + 1)]).collect();
    let listed = falling()
        .zip(&intervals)
        .map(|(id, one)| (id.0, id.1, &one[..]));
    set(&Vec::from_iter(listed))
}

/// A call that makes a set of two.
struct Call {
    made: fn(&ResumeSet, &ResumeSet) -> Result<ResumeSet, Refusal>,
    operator: fn(&ResumeSet, &ResumeSet) -> Result<ResumeSet, Refusal>,
    of_ids: for<'a> fn(&Ids<'a>, &Ids<'a>) -> Ids<'a>,
    /// Intervals for an entry of either set, of which the call makes so many.
    intervals: fn(u64) -> [Vec<Interval>; 2],
}

const CALLS: [Call; 3] = [
    Call {
        made: ResumeSet::union,
        operator: |a, b| a | b,
        of_ids: |a, b| a | b,
        intervals: |count| [pieces(count - count / 2, 1, 2), pieces(count / 2, 3, 4)],
    },
    Call {
        made: ResumeSet::intersection,
        operator: |a, b| a & b,
        of_ids: |a, b| a & b,
        // of 1 to 6, 11 to 16, .. and 5 to 11, 15 to 21, ..: 5 and 6, 11, 15 and 16, 21, ..
        intervals: |count| {
            [
                pieces(count / 2 + 1, 1, 7),
                pieces(count - count / 2, 5, 12),
            ]
        },
    },
    Call {
        made: ResumeSet::difference,
        operator: |a, b| a - b,
        of_ids: |a, b| a - b,
        // of 1 to 6, 11 to 16, .. without 3, 13, ..: 1 and 2, 4 to 6, 11 and 12, ..
        intervals: |count| [pieces(count - count / 2, 1, 7), pieces(count / 2, 3, 4)],
    },
];

/// So many intervals, ten apart.
fn pieces(count: u64, start: u64, end: u64) -> Vec<Interval> {
    (0..count).map(|i| (10 * i + start, 10 * i + end)).collect()
}

/// A set against the ids that it should have. Sets with the same ids have the same bytes.
fn assert_has(set: &ResumeSet, ids: &Ids) {
    assert_eq!(members(set), *ids);
    assert_eq!(set.as_bytes(), saved(ids));
    let again = ResumeSet::from_bytes(set.as_bytes().to_vec());
    assert_eq!(again.as_ref(), Ok(set));
}

/// Every call on two sets, against the same on their ids.
fn assert_calls(a: &ResumeSet, b: &ResumeSet) {
    let (in_a, in_b) = (members(a), members(b));
    for call in &CALLS {
        let made = (call.made)(a, b).unwrap();
        assert_has(&made, &(call.of_ids)(&in_a, &in_b));
        assert_eq!((call.operator)(a, b), Ok(made));
    }
    assert_eq!(a.is_subset(b), in_a.is_subset(&in_b));
    assert_eq!(a.is_superset(b), in_a.is_superset(&in_b));
    assert_head(a, b, &in_a, &in_b);
}

/// The set that is handed back is the very one that was lent, also where the other has the same bytes.
fn assert_head(a: &ResumeSet, b: &ResumeSet, in_a: &Ids, in_b: &Ids) {
    match a.head(b) {
        Ok(head) if in_a.is_superset(in_b) => assert!(ptr::eq(head, a)),
        Ok(head) => assert!(ptr::eq(head, b) && in_b.is_superset(in_a)),
        Err(refusal) => {
            assert_eq!(refusal, Refusal::Diverged);
            assert!(!in_a.is_superset(in_b) && !in_b.is_superset(in_a));
        }
    }
}

// ---- any sets

const KEYS: [(u16, &[u8]); 6] = [
    (1, b""),
    (1, b"a"),
    (1, b"ab"),
    (2, b""),
    (2, b"b"),
    (3, b""),
];

/// Some numbers up to 12 for each of some keys, or none, or all. Half of the sets have no tags.
fn some_ids(random: &mut Random) -> Ids<'static> {
    let tagged = random.below(2) == 1;
    let mut ids = Ids::new();
    for (number, tag) in KEYS {
        let quarters = random.below(5);
        if tagged || tag.is_empty() {
            let some = (1..=12).filter(|_| random.below(4) < quarters);
            ids.extend(some.map(|gno| (number, tag, gno)));
        }
    }
    ids
}

/// Any two sets, or one within the other, or equal ones.
fn some_pair(random: &mut Random) -> [ResumeSet; 2] {
    let (a, b) = (some_ids(random), some_ids(random));
    let pair = match random.below(5) {
        0 => [&a & &b, b],
        1 => [&a | &b, b],
        2 => [a.clone(), a],
        _ => [a, b],
    };
    for ids in &pair {
        assert_has(&set_of(ids), ids);
    }
    pair.map(|ids| set_of(&ids))
}

#[test]
fn sets_answer_as_their_ids_do() {
    let mut random = Random(7);
    // how often none of the two was within the other, one was, and both were
    let mut seen = [0; 3];
    for _ in 0..200 {
        let [a, b] = some_pair(&mut random);
        assert_calls(&a, &b);
        assert_calls(&b, &a);
        assert_calls(&a, &a);
        seen[usize::from(a.is_subset(&b)) + usize::from(b.is_subset(&a))] += 1;
    }
    assert!(seen.iter().all(|count| *count > 20), "{seen:?}");
}

#[test]
fn laws_hold() -> Result<(), Refusal> {
    let (mut random, empty) = (Random(11), ResumeSet::empty());
    for _ in 0..200 {
        let [a, b] = some_pair(&mut random);
        let (either, both, left) = ((&a | &b)?, (&a & &b)?, (&a - &b)?);
        assert_eq!((&b | &a)?, either);
        assert_eq!((&b & &a)?, both);
        assert_eq!((&left | &both)?, a);
        assert_eq!((&left & &both)?, empty);
        assert_eq!((&either - &b)?, left);
        assert_eq!((&a | &a)?, a);
        assert_eq!((&a & &a)?, a);
        assert_eq!((&a - &a)?, empty);
        assert_eq!((&a | &empty)?, a);
        assert_eq!((&a & &empty)?, empty);
        assert_eq!((&a - &empty)?, a);
        assert_eq!((&empty - &a)?, empty);
        assert_eq!(a.is_subset(&b), left == empty);
        // the head is the union, whichever is asked
        assert_eq!(a.head(&b), b.head(&a));
        assert!(a
            .head(&b)
            .map_or(a != either && b != either, |head| *head == either));
        assert!(a.is_subset(&either) && both.is_subset(&a) && left.is_subset(&a));
        assert!(a.is_subset(&a) && empty.is_subset(&a));
    }
    Ok(())
}

// ---- single cases

/// A result against the entries that it should have.
fn assert_made(made: Result<ResumeSet, Refusal>, wanted: &[Listed]) {
    assert_eq!(made.unwrap().as_bytes(), body(wanted));
}

#[test]
fn touching_pieces_become_one_interval() {
    let a = set(&[(1, b"", &[(1, 3), (5, 7), (20, 22)])]);
    let b = set(&[(1, b"", &[(3, 5), (7, 8), (23, 24)])]);
    assert_made(&a | &b, &[(1, b"", &[(1, 8), (20, 22), (23, 24)])]);
    assert_made(&a & &b, &[]);
    // and those that overlap
    let c = set(&[(1, b"", &[(2, 6), (21, 24)])]);
    assert_made(&a | &c, &[(1, b"", &[(1, 7), (20, 24)])]);
    assert_made(&a & &c, &[(1, b"", &[(2, 3), (5, 6), (21, 22)])]);
    assert_made(&a - &c, &[(1, b"", &[(1, 2), (6, 7), (20, 21)])]);
}

#[test]
fn an_entry_left_empty_goes() {
    let a = set(&[(1, b"", &[(1, 6)]), (2, b"", &[(1, 6)])]);
    let b = set(&[(1, b"", &[(1, 9)]), (2, b"", &[(6, 9)])]);
    assert_made(&a - &b, &[(2, b"", &[(1, 6)])]);
    assert_made(&a & &b, &[(1, b"", &[(1, 6)])]);
    assert_eq!((&a - &a).unwrap().as_bytes(), [0; 8]);
}

#[test]
fn another_tag_is_another_key() {
    let a = set(&[(1, b"", &[(1, 6)])]);
    let b = set(&[(1, b"bay_2", &[(1, 6)])]);
    let c = set(&[(1, b"bay_20", &[(1, 6)])]);
    for (first, second) in [(&a, &b), (&b, &a), (&b, &c), (&c, &b)] {
        assert_eq!(first & second, Ok(ResumeSet::empty()));
        assert_eq!(first - second, Ok(first.clone()));
        assert_eq!((first | second).unwrap().counts(), (2, 2));
        assert!(!first.is_subset(second));
    }
}

/// A set without tags has none for any entry, not even of no bytes.
#[test]
fn a_result_has_tags_where_it_needs_them() {
    let plain: Listed = (1, b"", &[(1, 6)]);
    let tagged: Listed = (2, b"depot", &[(1, 6)]);
    let both = set(&[plain, tagged]);
    assert_made(&set(&[plain]) | &set(&[tagged]), &[plain, tagged]);
    assert_made(&set(&[tagged]) | &set(&[plain]), &[plain, tagged]);
    assert_made(&both - &set(&[tagged]), &[plain]);
    assert_made(&both - &set(&[plain]), &[tagged]);
    assert_made(&both & &set(&[plain]), &[plain]);
    assert_made(&set(&[plain]) & &both, &[plain]);
    assert_made(&both & &set(&[tagged]), &[tagged]);
    assert!(set(&[plain]).is_subset(&both) && both.is_superset(&set(&[tagged])));
}

#[test]
fn the_highest_number_is_one_like_others() {
    let beyond = HIGHEST_GNO + 1;
    let all = set(&[(1, b"", &[(1, beyond)])]);
    let highest = set(&[(1, b"", &[(HIGHEST_GNO, beyond)])]);
    let below = set(&[(1, b"", &[(1, HIGHEST_GNO)])]);
    assert_eq!(&all - &highest, Ok(below.clone()));
    assert_eq!(&below | &highest, Ok(all.clone()));
    assert_eq!(&all & &highest, Ok(highest.clone()));
    assert!(highest.is_subset(&all) && !highest.is_subset(&below) && !all.is_subset(&below));
}

// ---- two heads

/// The first, the second, or the refusal.
fn head_of(a: &ResumeSet, b: &ResumeSet) -> Result<u8, Refusal> {
    let head = a.head(b)?;
    assert!(ptr::eq(head, a) || ptr::eq(head, b));
    Ok(if ptr::eq(head, a) { 1 } else { 2 })
}

#[test]
fn the_head_has_all_of_the_other() {
    let old = set(&[(1, b"", &[(1, 41)]), (1, b"depot", &[(1, 8)])]);
    let new = set(&[
        (1, b"", &[(1, 44)]),
        (1, b"depot", &[(1, 8)]),
        (2, b"", &[(1, 2)]),
    ]);
    assert_eq!(head_of(&old, &new), Ok(2));
    assert_eq!(head_of(&new, &old), Ok(1));
    assert_eq!(head_of(&old, &old), Ok(1));
    assert_eq!(head_of(&old, &old.clone()), Ok(1));
    let empty = ResumeSet::empty();
    assert_eq!(head_of(&empty, &old), Ok(2));
    assert_eq!(head_of(&old, &empty), Ok(1));
    assert_eq!(head_of(&empty, &ResumeSet::empty()), Ok(1));
}

#[test]
fn neither_is_the_head_if_each_lacks_an_id() {
    let apart = |a: &[Listed], b: &[Listed]| {
        let (a, b) = (set(a), set(b));
        assert_eq!(a.head(&b), Err(Refusal::Diverged));
        assert_eq!(b.head(&a), Err(Refusal::Diverged));
    };
    // one number each, in the middle, at the ends, and next to each other
    apart(&[(1, b"", &[(1, 9)])], &[(1, b"", &[(1, 4), (5, 10)])]);
    apart(&[(1, b"", &[(1, 5)])], &[(1, b"", &[(2, 6)])]);
    apart(&[(1, b"", &[(1, 2)])], &[(1, b"", &[(2, 3)])]);
    // of different keys, the first or the last; the shorter set has an id of its own, too
    apart(&[(1, b"", &[(1, 2)])], &[(2, b"", &[(1, 2)])]);
    apart(&[(1, b"", &[(1, 2)])], &[(1, b"a", &[(1, 2)])]);
    let long: Listed = (2, b"", &[(1, 2), (3, 4), (5, 6), (7, 8)]);
    apart(&[(2, b"", &[(1, 3)])], &[long]);
    apart(
        &[(1, b"", &[(1, 3)]), (3, b"", &[(1, 2)])],
        &[(1, b"", &[(1, 4)]), long],
    );
    // as many ids in as many intervals
    apart(
        &[(1, b"", &[(1, 3), (5, 7)])],
        &[(1, b"", &[(1, 3), (6, 8)])],
    );
}

// ---- limits

/// Two sets of which a call makes one whose entries have so many intervals.
fn lent(call: &Call, counts: &[u64]) -> [ResumeSet; 2] {
    let all: Vec<_> = counts
        .iter()
        .map(|count| (call.intervals)(*count))
        .collect();
    [0, 1].map(|side| {
        let listed = (0..)
            .zip(&all)
            .map(|(number, sides)| (number, &b""[..], &sides[side][..]));
        set(&Vec::from_iter(listed))
    })
}

/// What each call makes of such sets: how many entries and intervals, or a refusal.
fn assert_each(counts: &[u64], wanted: Result<(u64, u64), Refusal>) {
    for call in &CALLS {
        let [a, b] = lent(call, counts);
        let made = (call.made)(&a, &b);
        if let Ok(made) = &made {
            assert_has(made, &(call.of_ids)(&members(&a), &members(&b)));
        }
        assert_eq!((call.operator)(&a, &b), made);
        assert_eq!(made.map(|set| set.counts()), wanted);
    }
}

/// Both sets are below the limits: an entry of theirs has at most 513 intervals.
#[test]
fn limits_are_judged_of_the_result() {
    let (most, rest) = (OF_ENTRY, INTERVALS - 2 * OF_ENTRY);
    assert_each(&[most], Ok((1, most)));
    assert_each(&[most + 1], Err(Refusal::Crowded));
    assert_each(&[1, most, 1], Ok((3, most + 2)));
    assert_each(&[1, most + 1, 1], Err(Refusal::Crowded));
    assert_each(&[most, most, rest], Ok((3, INTERVALS)));
    assert_each(&[most, most, rest + 1], Err(Refusal::Full));
    // beyond both: that an entry has too many is said
    assert_each(&[most, rest, most + 1], Err(Refusal::Crowded));
}

#[test]
fn a_thousand_against_a_thousand() {
    let a = set(&[(1, b"", &pieces(1000, 1, 7))]);
    let b = set(&[(1, b"", &pieces(1000, 5, 12))]);
    // 1,999 intervals: 5 and 6, 11, 15 and 16, 21, ..
    assert_eq!(a.intersection(&b), Err(Refusal::Crowded));
    // 1 to 4, 12 to 14, 22 to 24, ..
    assert_eq!(a.difference(&b).unwrap().counts(), (1, 1000));
    assert_made(a.union(&b), &[(1, b"", &[(1, 10_002)])]);
    assert!(!a.is_subset(&b));
}

#[test]
fn entries_are_counted_in_the_result() {
    const HALF: usize = MAX_ENTRIES / 2;
    let all = entries(MAX_ENTRIES + 1);
    let (most, beyond) = all.split_at(MAX_ENTRIES);
    let (lower, upper) = (set(&most[..HALF]), set(&most[HALF..]));
    assert_made(&lower | &upper, most);
    assert_eq!(&lower | &set(&all[HALF..]), Err(Refusal::Full));
    let full = set(most);
    assert_calls(&full, &lower);
    assert_calls(&full, &full);
    assert_eq!(&full | &set(beyond), Err(Refusal::Full));
    assert_eq!(&full | &set(&[(0, b"a", &[(1, 2)])]), Err(Refusal::Full));
    assert!(full.is_superset(&upper) && !full.is_superset(&set(&all[HALF..])));
}

/// 385 entries, one of them with 1,025 intervals.
#[test]
fn crowded_is_said_before_full() {
    let [first, second] = (CALLS[0].intervals)(OF_ENTRY + 1);
    let mut lower = entries(MAX_ENTRIES / 2);
    let shared = lower.len() - 1;
    let mut upper = entries(MAX_ENTRIES + 1).split_off(shared);
    assert_eq!(&set(&lower) | &set(&upper), Err(Refusal::Full));
    (lower[shared].2, upper[0].2) = (&first, &second);
    assert_eq!(&set(&lower) | &set(&upper), Err(Refusal::Crowded));
}

#[test]
fn the_longest_set_is_made_of_two() {
    let seven = pieces(7, 1, 3);
    let all = longest(&seven);
    let (lower, upper) = all.split_at(MAX_ENTRIES / 2);
    let (lower, upper) = (set(lower), set(upper));
    let longest = lower.union(&upper).unwrap();
    assert_eq!(
        (longest.counts(), longest.as_bytes().len()),
        ((ENTRIES, INTERVALS), LONGEST_SET)
    );
    assert_eq!(longest.as_bytes(), body(&all));
    for other in [&lower, &upper, &longest] {
        assert_calls(&longest, other);
    }
}

/// A result that is refused can be had in parts: of some intervals of the first set, and then of the others.
#[test]
fn a_refused_difference_is_had_in_parts() {
    let (all, holes) = (pieces(600, 1, 7), pieces(600, 3, 4));
    let (whole, second) = (set(&[(1, b"", &all)]), set(&[(1, b"", &holes)]));
    assert_eq!(whole.difference(&second), Err(Refusal::Crowded));
    assert!(!whole.is_subset(&second));
    let parts = [&all[..300], &all[300..]].map(|some| set(&[(1, b"", some)]));
    let left = parts.map(|part| part.difference(&second).unwrap());
    assert_eq!(
        &members(&left[0]) | &members(&left[1]),
        &members(&whole) - &members(&second)
    );
}

// ---- a gap at a rotation

/// A binlog's opening event lists all ids of the files before it; the follower missed the end of the last file.
#[test]
fn a_gap_at_a_rotation_is_told() {
    let mut set = set(&[
        (1, b"", &[(1, 41)]),
        (1, b"depot", &[(1, 8)]),
        (3, b"", &[(5, 6)]),
    ]);
    let opening = body(&[
        (1, b"", &[(1, 44)]),
        (1, b"depot", &[(1, 8)]),
        (2, b"", &[(1, 2)]),
    ]);
    let listed = ResumeSet::take_in(&opening).unwrap();
    assert!(!listed.is_subset(&set));
    let missing = listed.difference(&set).unwrap();
    assert_eq!(
        list(PREVIOUS_GTIDS_EVENT, missing.as_bytes()),
        "previous-gtids entries 2 intervals 2\n\
         00010707-0707-0707-0707-070707070707:41-43\n\
         00020707-0707-0707-0707-070707070707:1\n"
    );

    // when these have been followed, nothing is missing
    for (number, _, gno) in members(&missing) {
        let event = GtidEvent::new(uuid(number), gno);
        let answer = take(&mut set, event.event_type(), &event.write().unwrap());
        assert_eq!(answer, Ok(Offered::Taken));
    }
    assert!(listed.is_subset(&set));
    assert_eq!(listed.difference(&set), Ok(ResumeSet::empty()));
}
