//! The binlog reader: wherever a file is cut it comes to the same, and that is what a plain walk over the whole file comes to.
use gtid_resume::{
    BinlogReader, Checksums, GtidEvent, Offered, Refusal, ResumeSet, Told, Walked,
    ANONYMOUS_GTID_EVENT, CHECKSUM_LEN, EVENT_HEADER_LEN, GTID_EVENT, GTID_TAGGED_LOG_EVENT,
    MAX_BODY, MAX_ENTRIES, PREVIOUS_GTIDS_EVENT,
};

mod common;
use common::{
    apart, body, entries, gtid, header, set, size_in, take, Listed, Random, FILE_OPENING,
    FORMAT_DESCRIPTION, OF_ENTRY, ROTATE, ROW, STOP, XID,
};

/// The types of events that are read; others are skipped.
const READ: [u8; 4] = [
    GTID_EVENT,
    ANONYMOUS_GTID_EVENT,
    PREVIOUS_GTIDS_EVENT,
    GTID_TAGGED_LOG_EVENT,
];

/// A file in the making.
#[derive(Clone)]
struct File {
    bytes: Vec<u8>,
    checksums: Checksums,
}

impl File {
    fn new(checksums: Checksums) -> File {
        let bytes = FILE_OPENING.to_vec();
        File { bytes, checksums }
    }

    fn trailer(&self) -> usize {
        CHECKSUM_LEN * (self.checksums as usize)
    }

    /// How many bytes an event with such a body has.
    fn size(&self, body_len: usize) -> usize {
        EVENT_HEADER_LEN + body_len + self.trailer()
    }

    fn header(&mut self, event_type: u8, size: u32) {
        self.bytes.extend(header(event_type, size));
    }

    fn event(&mut self, event_type: u8, body: &[u8]) {
        self.header(event_type, self.size(body.len()) as u32);
        self.bytes.extend(body);
        self.bytes.extend(&[0xc5; CHECKSUM_LEN][..self.trailer()]);
    }

    fn gtid(&mut self, gno: u64) {
        self.event(GTID_EVENT, &gtid(gno));
    }

    fn reader(&self, set: &ResumeSet) -> BinlogReader {
        BinlogReader::new(set.clone(), self.checksums)
    }

    /// What reading it in these pieces comes to, with an end that is named, or not.
    fn read(&self, set: &ResumeSet, pieces: &[&[u8]], ends: bool) -> Outcome {
        let mut reader = self.reader(set);
        let mut outcome = Outcome::default();
        for piece in pieces {
            outcome.feed(&mut reader, piece);
        }
        if ends {
            outcome.refusal = reader.finish().err();
            assert_eq!(reader.finish().err(), outcome.refusal); // named again
        }
        outcome.set = Some(reader.into_set());
        outcome
    }

    /// The same read whole, by a plain walk.
    fn model(&self, set: &ResumeSet, ends: bool) -> Outcome {
        let mut model = Model {
            set: set.clone(),
            told: Vec::new(),
        };
        let refusal = model.walk(&self.bytes, self.trailer(), ends).err();
        Outcome {
            told: model.told,
            refusal,
            set: Some(model.set),
        }
    }
}

fn tagged(tag: &[u8], gno: u64) -> Vec<u8> {
    let event = GtidEvent::new_tagged([7; 16], tag, gno).unwrap();
    event.write().unwrap()
}

/// Of an event what it is told, its type, its body, and the set after it.
type Event = (Told, u8, Vec<u8>, ResumeSet);

#[derive(Debug, Default, PartialEq)]
struct Outcome {
    told: Vec<Event>,
    refusal: Option<Refusal>,
    set: Option<ResumeSet>,
}

impl Outcome {
    /// All of a chunk. A refusal is the last thing that comes.
    fn feed(&mut self, reader: &mut BinlogReader, chunk: &[u8]) {
        let before = reader.set().clone();
        let mut feed = reader.feed(chunk);
        let mut last = (before, 0);
        let mut refusal = None;
        while let Some(walked) = feed.next() {
            assert_eq!(refusal, None);
            match walked {
                Ok(walked) => {
                    assert_eq!(walked.end, feed.used());
                    assert!(last.1 < walked.end);
                    last = (walked.set.clone(), walked.end);
                    self.push(walked);
                }
                Err(told) => refusal = Some(told),
            }
        }
        assert!(feed.next().is_none());
        let used = feed.used();
        drop(feed);
        assert!(refusal.is_some() || used == chunk.len());
        assert!(self.refusal.is_none() || (refusal, used) == (self.refusal, 0));
        assert_eq!(reader.set(), &last.0);
        self.refusal = refusal;
    }

    fn push(&mut self, walked: Walked) {
        let event = (walked.told, walked.event_type, walked.body, walked.set);
        self.told.push(event);
    }
}

/// A file that is read whole.
struct Model {
    set: ResumeSet,
    told: Vec<Event>,
}

impl Model {
    fn walk(&mut self, bytes: &[u8], trailer: usize, ends: bool) -> Result<(), Refusal> {
        let opening = FILE_OPENING.iter().zip(bytes);
        if opening.clone().any(|(wanted, byte)| wanted != byte) {
            return Err(Refusal::BadFile);
        }
        let missing = if ends { Err(Refusal::Ended) } else { Ok(()) };
        if opening.len() < FILE_OPENING.len() {
            return missing;
        }
        let mut rest = &bytes[FILE_OPENING.len()..];
        while !rest.is_empty() {
            let header = match rest.get(..EVENT_HEADER_LEN) {
                Some(header) => header,
                None => return missing,
            };
            let size = size_in(header);
            if size < EVENT_HEADER_LEN + trailer {
                return Err(Refusal::BadFile);
            }
            let read = READ.contains(&header[4]);
            if read && size - EVENT_HEADER_LEN - trailer > MAX_BODY {
                return Err(Refusal::TooLong);
            }
            if rest.len() < size {
                return missing;
            }
            if read {
                self.judge(header[4], &rest[EVENT_HEADER_LEN..size - trailer])?;
            }
            rest = &rest[size..];
        }
        Ok(())
    }

    fn judge(&mut self, event_type: u8, body: &[u8]) -> Result<(), Refusal> {
        let told = match event_type {
            PREVIOUS_GTIDS_EVENT => {
                self.set = self.set.union(&ResumeSet::take_in(body)?)?;
                Told::Joined
            }
            _ => match take(&mut self.set, event_type, body)? {
                Offered::Taken => Told::Taken,
                Offered::AlreadyThere => Told::AlreadyThere,
                Offered::NoId => Told::NoId,
            },
        };
        let event = (told, event_type, body.to_vec(), self.set.clone());
        self.told.push(event);
        Ok(())
    }
}

/// Whole, cut in two everywhere, and byte by byte with empty chunks between, it comes to the same.
fn assert_reads(file: &File, set: &ResumeSet) -> Outcome {
    for ends in [false, true] {
        let expected = file.model(set, ends);
        let bytes = &file.bytes[..];
        assert_eq!(file.read(set, &[bytes], ends), expected);
        for cut in 0..=bytes.len() {
            let (first, second) = bytes.split_at(cut);
            assert_eq!(file.read(set, &[first, second], ends), expected);
        }
        let single: Vec<_> = bytes.chunks(1).flat_map(|byte| [&[][..], byte]).collect();
        assert_eq!(file.read(set, &single, ends), expected);
    }
    file.model(set, true)
}

const BOTH: [Checksums; 2] = [Checksums::None, Checksums::Crc32];

/// A small file: the opening event with transactions 1 to 5, number 6 and its rows, 6 again, one without an id, and one with a tag.
fn small(checksums: Checksums) -> File {
    let mut file = File::new(checksums);
    file.event(FORMAT_DESCRIPTION, &[4; 90]);
    file.event(PREVIOUS_GTIDS_EVENT, &body(&[(0x0707, b"", &[(1, 6)])]));
    file.gtid(6);
    file.event(ROW, b"28.4 mm");
    file.event(XID, &[0; 8]);
    file.gtid(6);
    file.event(ANONYMOUS_GTID_EVENT, &gtid(0));
    file.event(STOP, b"");
    file.event(GTID_TAGGED_LOG_EVENT, &tagged(b"depot", 1));
    file.event(ROTATE, b"the next file's name");
    file
}

/// A smaller one: transactions 1 to 5, and 6.
fn with_six(checksums: Checksums) -> File {
    let mut file = File::new(checksums);
    file.event(PREVIOUS_GTIDS_EVENT, &body(&[(0x0707, b"", &[(1, 6)])]));
    file.gtid(6);
    file
}

fn told(outcome: &Outcome) -> Vec<Told> {
    outcome.told.iter().map(|event| event.0).collect()
}

// ---- single cases

#[test]
fn a_small_file() {
    for checksums in BOTH {
        let outcome = assert_reads(&small(checksums), &ResumeSet::empty());
        assert_eq!(outcome.refusal, None);
        assert_eq!(
            told(&outcome),
            [
                Told::Joined,
                Told::Taken,
                Told::AlreadyThere,
                Told::NoId,
                Told::Taken
            ]
        );
        let members: [Listed; 2] = [(0x0707, b"", &[(1, 7)]), (0x0707, b"depot", &[(1, 2)])];
        assert_eq!(outcome.set, Some(set(&members)));
    }
}

/// From the start again, from the set as it was after each event.
#[test]
fn a_saved_run_goes_on() {
    for checksums in BOTH {
        let file = small(checksums);
        let whole = file.model(&ResumeSet::empty(), true);
        for (_, _, _, saved) in &whole.told {
            let again = file.read(saved, &[&file.bytes], true);
            assert_eq!((again.refusal, &again.set), (None, &whole.set));
        }
        let last = whole.set.as_ref().unwrap();
        let again = assert_reads(&file, last);
        assert!(!told(&again).contains(&Told::Taken));
        assert!(again.told.iter().all(|event| event.3 == *last));
    }
}

#[test]
fn where_an_event_ended() {
    let file = small(Checksums::Crc32);
    let mut reader = file.reader(&ResumeSet::empty());
    let ends: Vec<_> = reader
        .feed(&file.bytes)
        .map(|walked| walked.unwrap().end)
        .collect();
    for end in &ends {
        // that many bytes and no fewer bring it
        let mut reader = file.reader(&ResumeSet::empty());
        let before = reader.feed(&file.bytes[..end - 1]).count();
        let mut feed = reader.feed(&file.bytes[end - 1..]);
        assert_eq!(feed.next().unwrap().unwrap().end, 1);
        assert_eq!(before, ends.iter().filter(|other| *other < end).count());
    }
}

/// The opening event's ids are joined to those that are there.
#[test]
fn previous_gtids_are_joined() {
    let start = set(&[(1, b"", &[(1, 6)]), (2, b"", &[(4, 9)])]);
    let mut file = File::new(Checksums::None);
    let listed: [Listed; 2] = [(2, b"", &[(1, 6)]), (3, b"", &[(7, 8)])];
    file.event(PREVIOUS_GTIDS_EVENT, &body(&listed));
    let outcome = assert_reads(&file, &start);
    let members: [Listed; 3] = [
        (1, b"", &[(1, 6)]),
        (2, b"", &[(1, 9)]),
        (3, b"", &[(7, 8)]),
    ];
    assert_eq!(outcome.set, Some(set(&members)));
    assert_eq!(told(&outcome), [Told::Joined]);
}

/// The limits are judged of the joined set alone.
#[test]
fn a_body_with_too_many_intervals_may_be_joined() {
    let (crowded, gaps) = (apart(OF_ENTRY + 1, 1), apart(OF_ENTRY, 2));
    let mut file = File::new(Checksums::Crc32);
    file.event(PREVIOUS_GTIDS_EVENT, &body(&[(7, b"", &crowded)]));
    let outcome = file.read(&ResumeSet::empty(), &[&file.bytes], true);
    assert_eq!(outcome.refusal, Some(Refusal::Crowded));
    assert_eq!(outcome.set, Some(ResumeSet::empty()));
    let outcome = file.read(&set(&[(7, b"", &gaps)]), &[&file.bytes], true);
    assert_eq!(outcome.refusal, None);
    let all = (1, 2 * (OF_ENTRY + 1));
    assert_eq!(outcome.set, Some(set(&[(7, b"", &[all])])));

    let mut file = File::new(Checksums::None);
    file.event(PREVIOUS_GTIDS_EVENT, &body(&entries(MAX_ENTRIES + 1)));
    let outcome = file.read(&ResumeSet::empty(), &[&file.bytes], true);
    assert_eq!(outcome.refusal, Some(Refusal::Full));
    assert_eq!(outcome.set, Some(ResumeSet::empty()));
}

/// Two bodies that are sets, and come to more than a set can have.
#[test]
fn a_join_that_passes_a_limit_keeps_the_set() {
    let (odd, even) = (apart(600, 1), apart(600, 10_001));
    let cases = [
        (
            body(&[(7, b"", &odd)]),
            body(&[(7, b"", &even)]),
            Refusal::Crowded,
        ),
        (
            body(&entries(MAX_ENTRIES)),
            body(&[(999, b"", &[(1, 2)])]),
            Refusal::Full,
        ),
    ];
    for (first, second, refusal) in cases {
        let mut file = File::new(Checksums::None);
        file.event(PREVIOUS_GTIDS_EVENT, &first);
        file.event(PREVIOUS_GTIDS_EVENT, &second);
        file.gtid(6);
        let outcome = file.read(&ResumeSet::empty(), &[&file.bytes], true);
        assert_eq!(outcome, file.model(&ResumeSet::empty(), true));
        assert_eq!(outcome.refusal, Some(refusal));
        assert_eq!(outcome.set, Some(ResumeSet::take_in(&first).unwrap()));
    }
}

/// The greatest size that a header can tell, and all of its bytes.
#[test]
fn an_event_of_four_gigabytes_is_skipped() {
    for checksums in BOTH {
        let mut file = File::new(checksums);
        file.header(ROW, u32::MAX);
        let mut reader = file.reader(&ResumeSet::empty());
        assert_eq!(reader.feed(&file.bytes).count(), 0);
        let zeros = vec![0; 1 << 24];
        let mut left = u32::MAX as usize - EVENT_HEADER_LEN;
        while left > 0 {
            assert_eq!(reader.clone().finish(), Err(Refusal::Ended));
            let chunk = &zeros[..left.min(zeros.len())];
            assert_eq!(reader.feed(chunk).count(), 0);
            left -= chunk.len();
        }
        assert_eq!(reader.clone().finish(), Ok(()));
        let mut behind = File::new(checksums);
        behind.gtid(6);
        let walked = reader
            .feed(&behind.bytes[FILE_OPENING.len()..])
            .next()
            .unwrap()
            .unwrap();
        assert_eq!(walked.told, Told::Taken);
    }
}

#[test]
fn a_body_that_is_too_long_is_refused_by_its_header() {
    for checksums in BOTH {
        for event_type in READ {
            let too_long = File::new(checksums).size(MAX_BODY + 1);
            for size in [too_long as u32, u32::MAX] {
                let mut file = with_six(checksums);
                file.header(event_type, size);
                let whole = file.bytes.len();
                let outcome = file.read(&ResumeSet::empty(), &[&file.bytes], true);
                assert_eq!(outcome.refusal, Some(Refusal::TooLong));
                assert_eq!(outcome, file.model(&ResumeSet::empty(), true));
                // and not before
                let bytes = &file.bytes[..whole - 1];
                let outcome = file.read(&ResumeSet::empty(), &[bytes], false);
                assert_eq!(outcome.refusal, None);
            }
        }
    }
}

#[test]
fn the_longest_body_is_read() {
    for checksums in BOTH {
        let mut file = File::new(checksums);
        file.event(ANONYMOUS_GTID_EVENT, &[0; MAX_BODY]);
        file.event(PREVIOUS_GTIDS_EVENT, &[0; MAX_BODY]);
        let outcome = file.read(&ResumeSet::empty(), &[&file.bytes], true);
        assert_eq!(outcome, file.model(&ResumeSet::empty(), true));
        assert_eq!(told(&outcome), [Told::NoId, Told::Joined]);
    }
}

#[test]
fn a_size_that_is_too_small() {
    for checksums in BOTH {
        for event_type in [GTID_EVENT, PREVIOUS_GTIDS_EVENT, ROW] {
            let least = File::new(checksums).size(0);
            for size in 0..least as u32 {
                let mut file = with_six(checksums);
                file.header(event_type, size);
                let outcome = file.read(&ResumeSet::empty(), &[&file.bytes], true);
                assert_eq!(outcome.refusal, Some(Refusal::BadFile));
                assert_eq!(outcome, file.model(&ResumeSet::empty(), true));
            }
        }
    }
}

#[test]
fn a_wrong_opening_byte_is_refused_as_it_comes() {
    for place in 0..FILE_OPENING.len() {
        let mut file = with_six(Checksums::None);
        file.bytes[place] = 0xfd;
        let outcome = assert_reads(&file, &ResumeSet::empty());
        assert_eq!(outcome.refusal, Some(Refusal::BadFile));
        let mut reader = file.reader(&ResumeSet::empty());
        assert_eq!(reader.feed(&file.bytes[..place]).count(), 0);
        let mut feed = reader.feed(&file.bytes[place..]);
        assert_eq!(feed.next(), Some(Err(Refusal::BadFile)));
        assert_eq!(feed.used(), 1);
    }
}

/// The end is well between two events, and at no other place.
#[test]
fn the_end() {
    for checksums in BOTH {
        let file = small(checksums);
        let mut well = 0;
        for cut in 0..=file.bytes.len() {
            let mut reader = file.reader(&ResumeSet::empty());
            reader
                .feed(&file.bytes[..cut])
                .for_each(|walked| drop(walked.unwrap()));
            let set = reader.set().clone();
            let end = reader.finish();
            let after = match end {
                Ok(()) => Refusal::BadFile,
                Err(refusal) => refusal,
            };
            well += usize::from(end.is_ok());
            assert!(end.is_ok() || end == Err(Refusal::Ended));
            assert_eq!(reader.feed(&[]).next(), end.err().map(Err)); // changes nothing
            assert_eq!(reader.finish(), end);
            for _ in 0..2 {
                assert_eq!(reader.feed(FILE_OPENING).next(), Some(Err(after)));
                assert_eq!(reader.feed(&[]).next(), Some(Err(after)));
                assert_eq!(reader.finish(), Err(after));
            }
            assert_eq!(reader.into_set(), set);
        }
        assert_eq!(well, 11); // behind the opening, and behind each of ten events
    }
}

#[test]
fn refused_events_stop_the_reader() {
    let without_id = [2, 12, 0, 6, 2, b'a'];
    let no_number = body(&[(7, b"", &[(0, 1)])]);
    let no_tag = body(&[(7, b"UP", &[(1, 2)])]);
    let cases: [(u8, &[u8], Refusal); 8] = [
        (GTID_EVENT, b"", Refusal::Ended),
        (GTID_EVENT, &gtid(7)[..24], Refusal::Ended),
        (GTID_EVENT, &gtid(0), Refusal::BadGno),
        (GTID_TAGGED_LOG_EVENT, &[1], Refusal::WrongVersion),
        (GTID_TAGGED_LOG_EVENT, &without_id, Refusal::AbsentId),
        (PREVIOUS_GTIDS_EVENT, &[0; 7], Refusal::Ended),
        (PREVIOUS_GTIDS_EVENT, &no_number, Refusal::BadGno),
        (PREVIOUS_GTIDS_EVENT, &no_tag, Refusal::BadTag),
    ];
    for (event_type, body, refusal) in cases {
        for checksums in BOTH {
            let mut file = with_six(checksums);
            file.event(event_type, body);
            file.gtid(9);
            let outcome = assert_reads(&file, &ResumeSet::empty());
            assert_eq!(outcome.refusal, Some(refusal));
            assert_eq!(told(&outcome), [Told::Joined, Told::Taken]);
            assert_eq!(outcome.set, Some(set(&[(0x0707, b"", &[(1, 7)])])));
        }
    }
}

// ---- feeds that are dropped early

#[test]
fn a_feed_that_is_dropped_loses_nothing() {
    for checksums in BOTH {
        let file = small(checksums);
        let expected = file.model(&ResumeSet::empty(), true);
        for size in [1, 7, 64, file.bytes.len()] {
            let mut reader = file.reader(&ResumeSet::empty());
            let mut outcome = Outcome::default();
            for chunk in file.bytes.chunks(size) {
                drop(reader.feed(chunk)); // not even asked
                                          // one event, and the rest is left
                if let Some(walked) = reader.feed(&[]).next() {
                    outcome.push(walked.unwrap());
                }
            }
            while let Some(walked) = reader.feed(&[]).next() {
                outcome.push(walked.unwrap());
            }
            assert_eq!(reader.finish(), Ok(()));
            outcome.set = Some(reader.into_set());
            assert_eq!(outcome, expected);
        }
    }
}

#[test]
fn places_count_from_the_chunk_also_behind_what_was_left() {
    let mut file = File::new(Checksums::None);
    file.gtid(6);
    let first = file.bytes.len();
    file.gtid(7);
    let mut reader = file.reader(&ResumeSet::empty());
    drop(reader.feed(&file.bytes[..first + 10]));
    let mut feed = reader.feed(&file.bytes[first + 10..]);
    assert_eq!(feed.next().unwrap().unwrap().end, 0);
    assert_eq!(feed.used(), 0);
    let end = file.bytes.len() - first - 10;
    assert_eq!(feed.next().unwrap().unwrap().end, end);
    assert_eq!((feed.used(), feed.next()), (end, None));
}

#[test]
#[should_panic(expected = "before all that was fed had been walked")]
fn the_end_is_not_named_over_events_that_nobody_saw() {
    let file = small(Checksums::None);
    let mut reader = file.reader(&ResumeSet::empty());
    drop(reader.feed(&file.bytes));
    let _ = reader.finish();
}

#[test]
fn after_a_refusal_nothing_is_left() {
    let mut reader = BinlogReader::new(ResumeSet::empty(), Checksums::None);
    assert_eq!(reader.feed(b"text").next(), Some(Err(Refusal::BadFile)));
    drop(reader.feed(b"more"));
    assert_eq!(
        reader.feed(&[]).collect::<Vec<_>>(),
        [Err(Refusal::BadFile)]
    );
    assert_eq!(reader.finish(), Err(Refusal::BadFile));
}

#[test]
fn a_copy_goes_on_by_itself() {
    let file = small(Checksums::Crc32);
    let expected = file.model(&ResumeSet::empty(), true).set;
    for cut in 0..file.bytes.len() {
        let mut reader = file.reader(&ResumeSet::empty());
        reader
            .feed(&file.bytes[..cut])
            .for_each(|walked| drop(walked.unwrap()));
        let mut copy = reader.clone();
        let other = reader.feed(&[0; 99]).last();
        assert!(other.is_some() || reader.set() == copy.set());
        copy.feed(&file.bytes[cut..])
            .for_each(|walked| drop(walked.unwrap()));
        assert_eq!(copy.finish(), Ok(()));
        assert_eq!(Some(copy.into_set()), expected);
    }
}

#[test]
fn a_reader_shows_its_set() {
    let reader = BinlogReader::new(ResumeSet::empty(), Checksums::None);
    let shown = format!("{reader:?}");
    assert!(
        shown.contains("BinlogReader") && shown.len() < 200,
        "{shown}"
    );
}

// ---- files by chance

fn id(random: &mut Random) -> Vec<u8> {
    gtid(1 + random.below(12))
}

fn listed(random: &mut Random) -> Vec<u8> {
    let first = 1 + random.below(9);
    let interval = (first, first + 1 + random.below(5));
    let tag: &[u8] = [&b""[..], b"bay_2"][random.below(2) as usize];
    body(&[(random.below(3) as u16, tag, &[interval])])
}

fn some_event(file: &mut File, random: &mut Random) {
    let gno = 1 + random.below(9);
    match random.below(12) {
        0..=3 => file.event(GTID_EVENT, &id(random)),
        4 => file.event(GTID_TAGGED_LOG_EVENT, &tagged(b"depot", gno)),
        5 => file.event(ANONYMOUS_GTID_EVENT, &id(random)),
        6 => file.event(PREVIOUS_GTIDS_EVENT, &listed(random)),
        7 => file.event(XID, &[0; 8]),
        8 => file.event(
            random.below(GTID_EVENT.into()) as u8,
            &[PREVIOUS_GTIDS_EVENT; 40][..random.below(40) as usize],
        ),
        9 => file.event(ROW, &vec![GTID_EVENT; random.below(300) as usize]),
        10 => file.event(255, b""),
        _ => file.event(ROW, &[GTID_EVENT; EVENT_HEADER_LEN]),
    }
}

/// Half of the files are damaged: a byte is another one, or the tail is missing.
fn some_file(random: &mut Random) -> File {
    let mut file = File::new(BOTH[random.below(2) as usize]);
    for _ in 0..random.below(12) {
        some_event(&mut file, random);
    }
    let place = random.below(file.bytes.len() as u64) as usize;
    match random.below(6) {
        0 | 1 => file.bytes[place] = random.below(256) as u8,
        2 => file.bytes.truncate(place),
        _ => {}
    }
    file
}

fn some_set(random: &mut Random) -> ResumeSet {
    let mut set = ResumeSet::empty();
    for _ in 0..random.below(4) {
        let _ = take(&mut set, GTID_EVENT, &id(random)).unwrap();
    }
    set
}

/// Pieces that end anywhere, some of them empty.
fn pieces<'a>(bytes: &'a [u8], random: &mut Random) -> Vec<&'a [u8]> {
    let most = [1, 3, 20, 60, 600][random.below(5) as usize];
    let mut pieces = Vec::new();
    let mut rest = bytes;
    while !rest.is_empty() {
        let len = random.below(most + 1).min(rest.len() as u64) as usize;
        pieces.push(&rest[..len]);
        rest = &rest[len..];
    }
    pieces
}

#[test]
fn files_by_chance_come_to_what_a_plain_walk_says() {
    let mut random = Random(0x6269_6e6c_6f67);
    let (mut events, mut refusals) = (0, 0);
    for _ in 0..3000 {
        let (file, set) = (some_file(&mut random), some_set(&mut random));
        let ends = random.below(2) == 0;
        let expected = file.model(&set, ends);
        let cut = pieces(&file.bytes, &mut random);
        assert_eq!(file.read(&set, &cut, ends), expected);
        assert_eq!(file.read(&set, &[&file.bytes], ends), expected);
        events += expected.told.len();
        refusals += usize::from(expected.refusal.is_some());
    }
    assert!(events > 5000 && refusals > 300, "{events} {refusals}");
}

/// A run that is stopped after any event, saved, and fed the whole file again ends with the same bytes, and says the same at last.
#[test]
fn files_by_chance_are_read_again_from_a_saved_set() {
    let mut random = Random(0x7265_706c_6179);
    for _ in 0..400 {
        let (file, set) = (some_file(&mut random), some_set(&mut random));
        let once = file.read(&set, &[&file.bytes], true);
        for (_, _, _, saved) in &once.told {
            let cut = pieces(&file.bytes, &mut random);
            let again = file.read(saved, &cut, true);
            assert_eq!((again.refusal, &again.set), (once.refusal, &once.set));
        }
    }
}
