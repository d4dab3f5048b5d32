//! How much a set may hold: 384 entries, 2,560 intervals in all, and 1,024 in any one entry.
use gtid_resume::{
    list, rewrite, Entry, Field, GtidEvent, GtidRead, Offer, Offered, PreviousGtidsEvent, Refusal,
    ResumeSet, ANONYMOUS_GTID_EVENT, GTID_EVENT, GTID_TAGGED_LOG_EVENT, LONGEST_SET, LONGEST_TEXT,
    MAX_ENTRIES, MAX_OF_ENTRY, MAX_TAG, PREVIOUS_GTIDS_EVENT,
};
use std::fs;

mod common;
use common::{
    apart, body, entries, event_of, longest, put_intervals, put_tag, set, take, uuid, with_tags,
    Folder, Listed, ENTRIES, INTERVALS, OF_ENTRY, TAG,
};

/// So many intervals of one id: 1, 3, 5 and so on.
fn odd(count: u64) -> Vec<(u64, u64)> {
    apart(count, 1)
}

/// Behind all of them, and touching none.
const APART: u64 = 1_000_000;

/// Behind the last of as many as an entry may have.
const NEXT: u64 = 2 * OF_ENTRY;

/// How many intervals are left where two entries have as many as they may.
const REST: u64 = INTERVALS - 2 * OF_ENTRY;

/// The uuid of the last entry of as many as a set may have.
const LAST: u16 = MAX_ENTRIES as u16 - 1;

/// Offers an id and commits the offer.
fn take_id(set: &mut ResumeSet, number: u16, tag: &[u8], gno: u64) -> Result<Offered, Refusal> {
    let event = event_of(number, tag, gno);
    take(set, event.event_type(), &event.write().unwrap())
}

#[test]
fn a_full_entry_still_lengthens_and_joins() {
    let mut set = set(&[(1, b"", &odd(OF_ENTRY))]);
    let before = set.clone();
    assert_eq!(take_id(&mut set, 1, b"", APART), Err(Refusal::Crowded));
    assert_eq!(take_id(&mut set, 1, b"", 1), Ok(Offered::AlreadyThere));
    assert_eq!(set, before);
    // the number behind the last interval
    assert_eq!(take_id(&mut set, 1, b"", NEXT), Ok(Offered::Taken));
    assert_eq!(set.counts(), (1, OF_ENTRY));
    // the number between the first two
    assert_eq!(take_id(&mut set, 1, b"", 2), Ok(Offered::Taken));
    assert_eq!(set.counts(), (1, OF_ENTRY - 1));
    assert_eq!(take_id(&mut set, 1, b"", APART), Ok(Offered::Taken));
    assert_eq!(take_id(&mut set, 1, b"", APART + 2), Err(Refusal::Crowded));
    assert_eq!(set.counts(), (1, OF_ENTRY));
}

#[test]
fn beside_a_full_entry_others_have_room() {
    let mut set = set(&[(1, b"", &odd(OF_ENTRY))]);
    assert_eq!(take_id(&mut set, 1, b"depot", APART), Ok(Offered::Taken));
    assert_eq!(take_id(&mut set, 2, b"", APART), Ok(Offered::Taken));
    assert_eq!(take_id(&mut set, 1, b"", APART), Err(Refusal::Crowded));
    assert_eq!(set.counts(), (3, OF_ENTRY + 2));
}

#[test]
fn the_385th_entry_is_refused() {
    let mut set = set(&entries(MAX_ENTRIES));
    assert_eq!(take_id(&mut set, LAST + 1, b"", 1), Err(Refusal::Full));
    assert_eq!(take_id(&mut set, LAST, b"depot", 1), Err(Refusal::Full));
    assert_eq!(set.counts(), (ENTRIES, ENTRIES));
    assert_eq!(take_id(&mut set, LAST, b"", APART), Ok(Offered::Taken));
    assert_eq!(set.counts(), (ENTRIES, ENTRIES + 1));
}

#[test]
fn the_2561st_interval_is_refused() {
    let (most, rest) = (odd(OF_ENTRY), odd(REST));
    let mut set = set(&[(1, b"", &most), (2, b"", &most), (3, b"", &rest)]);
    assert_eq!(set.counts(), (3, INTERVALS));
    assert_eq!(take_id(&mut set, 3, b"", APART), Err(Refusal::Full));
    assert_eq!(take_id(&mut set, 4, b"", APART), Err(Refusal::Full));
    // where the entry has no room either, that is said
    assert_eq!(take_id(&mut set, 1, b"", APART), Err(Refusal::Crowded));
    assert_eq!(take_id(&mut set, 1, b"", NEXT), Ok(Offered::Taken));
    assert_eq!(set.counts(), (3, INTERVALS));
    assert_eq!(take_id(&mut set, 1, b"", 2), Ok(Offered::Taken));
    assert_eq!(take_id(&mut set, 3, b"", APART), Ok(Offered::Taken));
    assert_eq!(set.counts(), (3, INTERVALS));
}

#[test]
fn taking_in_says_crowded_before_full() {
    let (most, more, rest) = (odd(OF_ENTRY), odd(OF_ENTRY + 1), odd(REST + 1));
    let mut many = entries(MAX_ENTRIES + 1);
    assert_eq!(ResumeSet::take_in(&body(&many)), Err(Refusal::Full));
    many[200].2 = &most;
    assert_eq!(ResumeSet::take_in(&body(&many)), Err(Refusal::Full));
    many[200].2 = &more;
    assert_eq!(ResumeSet::take_in(&body(&many)), Err(Refusal::Crowded));
    // beyond all three limits: 3,455 intervals
    (many[100].2, many[300].2) = (&most, &most);
    assert_eq!(ResumeSet::take_in(&body(&many)), Err(Refusal::Crowded));
    let mut three: [Listed; 3] = [(1, b"", &most), (2, b"", &most), (3, b"", &rest)];
    assert_eq!(ResumeSet::take_in(&body(&three)), Err(Refusal::Full));
    three[1].2 = &more;
    assert_eq!(ResumeSet::take_in(&body(&three)), Err(Refusal::Crowded));
}

/// Intervals are counted once they are joined, in the entries of the set and not in those of the body.
#[test]
fn limits_are_judged_of_the_result() {
    let all = odd(OF_ENTRY + 2);
    let (lower, upper) = all.split_at(MAX_OF_ENTRY / 2 + 1);
    let halves: [Listed; 2] = [(1, b"", upper), (1, b"", lower)];
    assert_eq!(ResumeSet::take_in(&body(&halves)), Err(Refusal::Crowded));
    let touching: Vec<_> = (1..=NEXT).map(|gno| (gno, gno + 1)).collect();
    assert_eq!(set(&[(1, b"", &touching)]).counts(), (1, 1));
    let repeated = [&entries(MAX_ENTRIES)[..], &entries(MAX_ENTRIES)].concat();
    assert_eq!(set(&repeated).counts(), (ENTRIES, ENTRIES));
}

#[test]
fn bytes_that_pass_a_limit_are_no_set() {
    let (most, rest) = (odd(OF_ENTRY), odd(REST));
    for within in [
        body(&[(1, b"", &most)]),
        body(&entries(MAX_ENTRIES)),
        body(&[(1, b"", &most), (2, b"", &most), (3, b"", &rest)]),
    ] {
        let lent = ResumeSet::from_bytes(within.clone()).unwrap();
        assert_eq!(lent.as_bytes(), within);
    }
    let (more, rest) = (odd(OF_ENTRY + 1), odd(REST + 1));
    for beyond in [
        body(&[(1, b"", &more)]),
        body(&entries(MAX_ENTRIES + 1)),
        body(&[(1, b"", &most), (2, b"", &most), (3, b"", &rest)]),
    ] {
        assert_eq!(ResumeSet::from_bytes(beyond), Err(Refusal::NotASet));
    }
}

/// The least number with 19 digits.
const HIGH: u64 = 1_000_000_000_000_000_000;

/// The longest set whose numbers have 19 digits.
fn longest_set() -> ResumeSet {
    let seven: Vec<_> = (0..7).map(|i| (HIGH + 10 * i, HIGH + 10 * i + 2)).collect();
    set(&longest(&seven))
}

#[test]
fn the_longest_set_is_saved_and_listed() {
    let set = longest_set();
    assert_eq!(set.counts(), (ENTRIES, INTERVALS));
    assert_eq!(set.as_bytes().len(), LONGEST_SET);
    let folder = Folder::new("longest");
    set.save(folder.file("set")).unwrap();
    assert_eq!(ResumeSet::load(folder.file("set")).unwrap(), set);
    let text = list(PREVIOUS_GTIDS_EVENT, set.as_bytes());
    assert_eq!(text.lines().count(), 1 + MAX_ENTRIES);
    assert_eq!(text.len(), LONGEST_TEXT);
}

#[test]
fn the_longest_set_takes_what_lengthens_an_interval() {
    let mut set = longest_set();
    assert_eq!(take_id(&mut set, LAST, &TAG, HIGH + 62), Ok(Offered::Taken));
    assert_eq!(set.as_bytes().len(), LONGEST_SET);
    assert_eq!(take_id(&mut set, LAST, &TAG, APART), Err(Refusal::Full));
}

#[test]
fn the_first_tag_widens_every_entry() {
    let others = MAX_ENTRIES - 1;
    let mut set = set(&entries(others));
    assert_eq!(take_id(&mut set, LAST, &TAG, 1), Ok(Offered::Taken));
    assert_eq!(set.counts(), (ENTRIES, ENTRIES));
    assert!(set.contains(&uuid(LAST), &TAG, 1));
    // uuid, tag with its length, count, interval
    let (without_tag, with_tag) = (16 + 1 + 8 + 16, 16 + 1 + MAX_TAG + 8 + 16);
    assert_eq!(set.as_bytes().len(), 8 + others * without_tag + with_tag);
}

// ---- sets that were saved while one entry could have 2,048 intervals

/// More than an entry may have now.
const OLD: u64 = 1500;

/// Among others one with so many.
fn old_set() -> Vec<u8> {
    body(&[
        (1, b"", &[(1, 6)]),
        (2, b"", &odd(OLD)),
        (2, b"depot", &[(1, 6)]),
    ])
}

#[test]
fn an_old_set_is_a_body_still() {
    let old = old_set();
    assert_eq!(ResumeSet::from_bytes(old.clone()), Err(Refusal::NotASet));
    assert_eq!(ResumeSet::take_in(&old), Err(Refusal::Crowded));
    assert_eq!(list(PREVIOUS_GTIDS_EVENT, &old), "refused 17\n");
    let (previous, used) = PreviousGtidsEvent::read(&old).unwrap();
    assert_eq!(used, old.len());
    let counts = previous.sids().map(|entry| entry.intervals().len());
    assert!(counts.eq([1, OLD as usize, 1]));
    assert_eq!(rewrite(&old), Ok(old));
}

/// An old set as two. Of an entry with more than 1,024 intervals the first has the lowest 1,024; the second has all that is left.
fn cut(old: &[u8]) -> Result<[ResumeSet; 2], Refusal> {
    let (previous, _) = PreviousGtidsEvent::read(old)?;
    let header = with_tags(previous.len() as u64).to_le_bytes();
    let (mut first, mut second) = (header.to_vec(), header.to_vec());
    for entry in previous.sids() {
        let all: Vec<_> = entry.intervals().collect();
        let lowest = match all.len() {
            0..=MAX_OF_ENTRY => 0,
            _ => MAX_OF_ENTRY,
        };
        put_entry(&mut first, entry, &all[..lowest]);
        put_entry(&mut second, entry, &all[lowest..]);
    }
    Ok([ResumeSet::take_in(&first)?, ResumeSet::take_in(&second)?])
}

/// Taking in leaves out an entry without intervals, and tags where there are none.
fn put_entry(body: &mut Vec<u8>, entry: Entry, intervals: &[(u64, u64)]) {
    body.extend(entry.uuid());
    put_tag(body, entry.tag());
    put_intervals(body, intervals);
}

/// Offers an event to the second set, unless the first has its id: then the transaction is passed over.
fn offer_to<'a>(
    [first, second]: &'a mut [ResumeSet; 2],
    event_type: u8,
    body: &[u8],
) -> Result<Option<Offer<'a>>, Refusal> {
    let GtidRead { event, present, .. } = GtidEvent::read(event_type, body)?;
    let has_id = match event_type {
        ANONYMOUS_GTID_EVENT => false,
        GTID_TAGGED_LOG_EVENT => present.contains(Field::Uuid) && present.contains(Field::Gno),
        _ => true,
    };
    if has_id && first.contains(&event.sid, &event.tag, event.gno) {
        return Ok(None);
    }
    second.offer(event_type, body).map(Some)
}

/// A uuid, a tag, and an interval.
type Ids<'a> = (&'a [u8; 16], &'a [u8], (u64, u64));

/// All intervals with their uuids and tags.
fn all<'a>(entries: impl Iterator<Item = Entry<'a>>) -> Vec<Ids<'a>> {
    let of_one = |entry: Entry<'a>| {
        let intervals = entry.intervals();
        intervals.map(move |interval| (entry.uuid(), entry.tag(), interval))
    };
    entries.flat_map(of_one).collect()
}

#[test]
fn two_sets_have_the_ids_of_an_old_one() {
    let old = old_set();
    let [first, second] = cut(&old).unwrap();
    assert_eq!(first.counts(), (1, OF_ENTRY));
    assert_eq!(second.counts(), (3, OLD - OF_ENTRY + 2));
    let mut both = [all(first.entries()), all(second.entries())].concat();
    both.sort_unstable();
    let (previous, _) = PreviousGtidsEvent::read(&old).unwrap();
    assert_eq!(both, all(previous.sids()));
}

/// Offers an id of the entry that is cut and commits the offer; no answer where the transaction is passed over.
fn take_as_two(sets: &mut [ResumeSet; 2], event_type: u8, gno: u64) -> Option<Offered> {
    let body = event_of(2, b"", gno).write().unwrap();
    let offer = offer_to(sets, event_type, &body).unwrap()?;
    let answer = offer.answer();
    offer.commit();
    Some(answer)
}

/// The answers to an id of the first set, an event without an id, an id of the second set, and two new ones.
fn answers(sets: &mut [ResumeSet; 2]) -> [Option<Offered>; 5] {
    [
        (GTID_EVENT, 1),
        (ANONYMOUS_GTID_EVENT, 1),
        (GTID_EVENT, 2 * OLD - 1),
        (GTID_EVENT, 2),
        (GTID_EVENT, 2 * OLD),
    ]
    .map(|(event_type, gno)| take_as_two(sets, event_type, gno))
}

/// Zeros stand in a record for a uuid that wasn't sent, and the first set isn't asked for them.
#[test]
fn an_event_without_its_id_is_not_passed_over() {
    let zeros = GtidEvent::new_tagged([0; 16], b"a", 1).unwrap();
    let mut sets = [ResumeSet::empty(), ResumeSet::empty()];
    let answer = take(&mut sets[0], GTID_TAGGED_LOG_EVENT, &zeros.write().unwrap());
    assert_eq!(answer, Ok(Offered::Taken));
    // version byte, size, last non-ignorable id, the gno 1, and the tag
    let body = [2, 16, 0, 4, 4, 6, 2, b'a'];
    let offer = offer_to(&mut sets, GTID_TAGGED_LOG_EVENT, &body);
    assert_eq!(offer.unwrap_err(), Refusal::AbsentId);
}

/// The first set stays as it is and is saved once; what is saved after an offer is the second.
#[test]
fn an_old_set_goes_on_as_two() {
    use Offered::{AlreadyThere, NoId, Taken};
    let (no_id, there, taken) = (Some(NoId), Some(AlreadyThere), Some(Taken));
    let again = [None, no_id, there, there, there];
    let folder = Folder::new("two");
    let files = ["first", "second"].map(|name| folder.file(name));

    let mut sets = cut(&old_set()).unwrap();
    let first = sets[0].clone();
    first.save(&files[0]).unwrap();
    assert_eq!(answers(&mut sets), [None, no_id, there, taken, taken]);
    assert_eq!(answers(&mut sets), again);
    assert_eq!(sets[0], first);
    assert_eq!(sets[1].counts(), (3, OLD - OF_ENTRY + 3));
    sets[1].save(&files[1]).unwrap();

    let mut loaded = [0, 1].map(|set| ResumeSet::load(&files[set]).unwrap());
    assert_eq!(answers(&mut loaded), again);
    assert_eq!(loaded, sets);
    for (file, set) in files.iter().zip(&loaded) {
        assert_eq!(fs::read(file).unwrap(), set.as_bytes());
    }
}

/// The numbers of a Previous-GTIDs event that neither set has. They are asked one by one: an interval may be partly in either.
fn missing(sets: &[ResumeSet; 2], opening: &[u8]) -> Result<Vec<u64>, Refusal> {
    let (previous, _) = PreviousGtidsEvent::read(opening)?;
    let mut missing = Vec::new();
    for (uuid, tag, (start, end)) in all(previous.sids()) {
        let in_neither = |gno: &u64| !sets.iter().any(|set| set.contains(uuid, tag, *gno));
        missing.extend((start..end).filter(in_neither));
    }
    Ok(missing)
}

#[test]
fn an_opening_event_is_asked_of_both() {
    let old = old_set();
    let mut sets = cut(&old).unwrap();
    assert_eq!(ResumeSet::take_in(&old), Err(Refusal::Crowded));
    assert_eq!(missing(&sets, &old), Ok(vec![]));
    // one more: the number between the last of the first set and the next one, which is in the second
    let mut intervals = odd(OLD);
    intervals.splice(MAX_OF_ENTRY - 1..MAX_OF_ENTRY + 1, [(NEXT - 1, NEXT + 2)]);
    let opening = body(&[(2, b"", &intervals)]);
    assert_eq!(ResumeSet::take_in(&opening), Err(Refusal::Crowded));
    assert_eq!(missing(&sets, &opening), Ok(vec![NEXT]));
    let answer = take_as_two(&mut sets, GTID_EVENT, NEXT);
    assert_eq!(answer, Some(Offered::Taken));
    assert_eq!(missing(&sets, &opening), Ok(vec![]));
}
