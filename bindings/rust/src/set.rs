use crate::numbers::{
    ALREADY_THERE, ENTRY_HEAD, INTERVAL_LEN, LONGEST_SET, MAX_TAG, TAGGED_HEAD, TAKEN, UUID_LEN,
};
use crate::sys;
use crate::{Counts, Entry, PreviousGtidsEvent, Refusal, Report};

/// What an offer comes to, if it isn't refused, and what a follower does then. Nothing but [`Offered::AlreadyThere`] may be passed over.
///
/// ```
/// use gtid_resume::{GtidEvent, Offered, ResumeSet, ANONYMOUS_GTID_EVENT};
///
/// let body = GtidEvent::new([0; 16], 0).write()?;
/// assert_eq!(ResumeSet::empty().offer(ANONYMOUS_GTID_EVENT, &body)?.answer(), Offered::NoId);
/// # Ok::<(), gtid_resume::Refusal>(())
/// ```
#[must_use = "a transaction that isn't already there has to be copied"]
#[derive(Clone, Copy, Debug, PartialEq, Eq, Hash)]
pub enum Offered {
    /// The event's id is new: copy the transaction and commit it in the tool, then [commit](Offer::commit) the offer and
    /// [save](ResumeSet::save) the set.
    Taken,
    /// The event's id is a member already: pass the transaction over.
    AlreadyThere,
    /// An anonymous event (type 34) has no id: copy the transaction. The set stays the same and doesn't protect it: it is copied again
    /// whenever its event is offered again, after a crash or by another run over the same file.
    NoId,
}

/// An offer that isn't committed yet: the answer, and the set as it would be next.
///
/// An offer is made at the GTID event, before the rows of its transaction have arrived. So the set stays as it was until
/// [`commit`](Offer::commit), and an offer that is dropped, by an error on the way, changes nothing: the transaction is offered again.
///
/// ```
/// use gtid_resume::{GtidEvent, Offered, ResumeSet, GTID_EVENT};
///
/// let body = GtidEvent::new([7; 16], 6).write()?;
/// let mut set = ResumeSet::empty();
/// drop(set.offer(GTID_EVENT, &body)?); // the tool didn't commit
/// assert_eq!(set, ResumeSet::empty());
/// let offer = set.offer(GTID_EVENT, &body)?;
/// assert_eq!(offer.answer(), Offered::Taken);
/// offer.commit(); // the tool did
/// assert!(set.contains(&[7; 16], b"", 6));
/// # Ok::<(), gtid_resume::Refusal>(())
/// ```
#[must_use = "the set stays as it was until the offer is committed"]
#[derive(Debug)]
pub struct Offer<'a> {
    set: &'a mut ResumeSet,
    next: Vec<u8>,
    answer: Offered,
}

impl Offer<'_> {
    /// What the offer comes to.
    ///
    /// ```
    /// use gtid_resume::{GtidEvent, Offered, ResumeSet, GTID_EVENT};
    ///
    /// let body = GtidEvent::new([7; 16], 6).write()?;
    /// match ResumeSet::empty().offer(GTID_EVENT, &body)?.answer() {
    ///     Offered::AlreadyThere => println!("the tool has it"),
    ///     Offered::Taken | Offered::NoId => println!("copy it"),
    /// }
    /// # Ok::<(), gtid_resume::Refusal>(())
    /// ```
    pub fn answer(&self) -> Offered {
        self.answer
    }

    /// The bytes of the next set, for a tool that is a database: it keeps the set in a table and changes it in the same commit as the
    /// transaction. Then neither can be there without the other, and no transaction is copied twice, unless it is anonymous.
    ///
    /// ```
    /// use gtid_resume::{GtidEvent, ResumeSet, GTID_EVENT};
    ///
    /// # struct Database(Vec<u8>);
    /// # impl Database {
    /// #     fn commit(&mut self, _rows: &str, set: &[u8]) { self.0 = set.to_vec(); }
    /// # }
    /// # let mut database = Database(vec![]);
    /// let body = GtidEvent::new([7; 16], 6).write()?;
    /// let mut set = ResumeSet::empty();
    /// let offer = set.offer(GTID_EVENT, &body)?;
    /// database.commit("wheel 17: 28.4 mm", offer.next_bytes());
    /// offer.commit();
    /// # assert_eq!(database.0, set.as_bytes());
    /// # Ok::<(), gtid_resume::Refusal>(())
    /// ```
    pub fn next_bytes(&self) -> &[u8] {
        &self.next
    }

    /// The next set by itself, for a follower that can't hold the offer until the transaction has ended, since the offer borrows the set.
    ///
    /// ```
    /// use gtid_resume::{GtidEvent, Offered, ResumeSet, GTID_EVENT};
    ///
    /// # const ROW: u8 = 30;
    /// # const XID: u8 = 16;
    /// # let body = GtidEvent::new([7; 16], 6).write()?;
    /// # let events = [(GTID_EVENT, body.as_slice()), (ROW, b"28.4 mm"), (XID, b"")];
    /// # let mut set = ResumeSet::empty();
    /// let mut pending = None;
    /// let mut rows = Vec::new();
    /// for (event_type, body) in events {
    ///     match event_type {
    ///         GTID_EVENT => {
    ///             let offer = set.offer(event_type, body)?;
    ///             pending = Some((offer.answer(), offer.into_next()));
    ///         }
    ///         ROW => rows.push(body),
    ///         XID => match pending.take().expect("a transaction begins with its GTID event") {
    ///             (Offered::AlreadyThere, _) => rows.clear(),
    ///             (Offered::Taken | Offered::NoId, next) => {
    ///                 // copy the rows, and commit them in the tool
    ///                 rows.clear();
    ///                 set = next; // and save it
    ///             }
    ///         },
    ///         _ => {}
    ///     }
    /// }
    /// # assert!(set.contains(&[7; 16], b"", 6));
    /// # Ok::<(), gtid_resume::Refusal>(())
    /// ```
    pub fn into_next(self) -> ResumeSet {
        ResumeSet { bytes: self.next }
    }

    /// Makes the next set the current one, once the tool has committed the transaction.
    ///
    /// ```
    /// use gtid_resume::{GtidEvent, ResumeSet, GTID_EVENT};
    ///
    /// let body = GtidEvent::new([7; 16], 6).write()?;
    /// let mut set = ResumeSet::empty();
    /// set.offer(GTID_EVENT, &body)?.commit();
    /// assert_eq!(set.counts(), (1, 1));
    /// # Ok::<(), gtid_resume::Refusal>(())
    /// ```
    pub fn commit(self) {
        self.set.bytes = self.next;
    }
}

/// A set of transaction ids, as the bytes that a follower saves: those that it has taken.
///
/// Its members are exactly the ids that it began with and those of the committed offers that were answered [`Offered::Taken`] or
/// [`Offered::AlreadyThere`]; that is proved of the bytes. Two sets with the same members have the same bytes.
///
/// A set has at most 384 entries (a uuid with a tag or without), 2,560 intervals of transaction numbers in all, and 1,024 in any one entry.
///
/// ```
/// use gtid_resume::{GtidEvent, ResumeSet, GTID_EVENT};
///
/// let mut set = ResumeSet::empty();
/// for gno in [1, 3, 2] {
///     set.offer(GTID_EVENT, &GtidEvent::new([7; 16], gno).write()?)?.commit();
/// }
/// assert_eq!(set.counts(), (1, 1)); // one uuid with one interval, 1 to 3
/// # Ok::<(), gtid_resume::Refusal>(())
/// ```
#[derive(Clone, Debug, PartialEq, Eq, Hash)]
pub struct ResumeSet {
    pub(crate) bytes: Vec<u8>,
}

impl ResumeSet {
    /// A set without members.
    ///
    /// ```
    /// assert_eq!(gtid_resume::ResumeSet::empty().as_bytes(), [0; 8]);
    /// ```
    pub fn empty() -> Self {
        ResumeSet { bytes: vec![0; 8] }
    }

    /// The set of all ids of a Previous-GTIDs event's body (type 35), without the event's header and checksum.
    ///
    /// A binlog file opens with this event, which lists all ids before it. A follower starts from it, and at the next file takes it in as a
    /// set of its own to see whether it has missed any of them: [`is_subset`](ResumeSet::is_subset) shows how. Anonymous transactions aren't
    /// listed, so that a lost one can't be seen.
    ///
    /// # Errors
    ///
    /// [`Refusal::TooLong`], [`Refusal::Ended`], [`Refusal::BadTag`], [`Refusal::BadGno`], [`Refusal::Crowded`] or [`Refusal::Full`]. The last
    /// two are judged in this order, and of the set, not of the body: intervals that touch or overlap are joined before they are counted.
    ///
    /// ```
    /// use gtid_resume::{Refusal, ResumeSet};
    ///
    /// assert_eq!(ResumeSet::take_in(&[0; 8])?, ResumeSet::empty());
    /// assert_eq!(ResumeSet::take_in(&[0; 7]), Err(Refusal::Ended));
    /// # Ok::<(), Refusal>(())
    /// ```
    pub fn take_in(body: &[u8]) -> Result<Self, Refusal> {
        ResumeSet::written(|out, len| unsafe {
            sys::gtid_take_in(body.as_ptr(), body.len(), out.as_mut_ptr(), out.len(), len)
        })
    }

    /// The set that a call writes.
    pub(crate) fn written(call: impl FnOnce(&mut [u8], &mut usize) -> u8) -> Result<Self, Refusal> {
        let bytes = sys::written(LONGEST_SET, call)?;
        Ok(ResumeSet { bytes })
    }

    /// A set that was saved. [`load`](ResumeSet::load) says what to do about a refusal.
    ///
    /// # Errors
    ///
    /// [`Refusal::NotASet`] if the bytes are none, also if they would be one but for a limit.
    ///
    /// ```
    /// use gtid_resume::{Refusal, ResumeSet};
    ///
    /// let saved = ResumeSet::empty().as_bytes().to_vec();
    /// assert_eq!(ResumeSet::from_bytes(saved)?, ResumeSet::empty());
    /// assert_eq!(ResumeSet::from_bytes(vec![1]), Err(Refusal::NotASet));
    /// # Ok::<(), Refusal>(())
    /// ```
    pub fn from_bytes(bytes: Vec<u8>) -> Result<Self, Refusal> {
        counts(&bytes)?;
        Ok(ResumeSet { bytes })
    }

    /// Offers the body of a GTID event (types 33, 34 and 42) to the set. The set changes only when the offer is
    /// [committed](Offer::commit).
    ///
    /// The order is: offer, copy the transaction, commit it in the tool, commit the offer, save. After a crash before the save the
    /// transaction is offered again; so the tool must accept it twice, which means to recognise its id, or set and transaction must go into
    /// one commit ([`Offer::next_bytes`]). Whoever saves before the tool has committed loses a transaction by a crash in between.
    ///
    /// # Errors
    ///
    /// In this order: the event's own refusals, 1 to 11; [`Refusal::AbsentId`] for a tagged event (type 42) that lacks its uuid or its number;
    /// [`Refusal::BadGno`] for an id (types 33 and 42) whose number is 0 or above [`HIGHEST_GNO`](crate::HIGHEST_GNO); and
    /// [`Refusal::Crowded`] or [`Refusal::Full`] for an id that stands apart where there is no room for one more interval, or one more entry.
    /// (An id that lengthens an interval, or joins two, is taken.) The event was not taken and must not be passed over.
    ///
    /// ```
    /// use gtid_resume::{GtidEvent, Offered, Refusal, ResumeSet, GTID_EVENT};
    ///
    /// let body = GtidEvent::new([7; 16], 6).write()?;
    /// let mut set = ResumeSet::empty();
    /// let offer = set.offer(GTID_EVENT, &body)?;
    /// assert_eq!(offer.answer(), Offered::Taken);
    /// offer.commit();
    /// assert_eq!(set.offer(GTID_EVENT, &body)?.answer(), Offered::AlreadyThere);
    /// assert_eq!(set.offer(99, &body).unwrap_err(), Refusal::WrongType);
    /// # Ok::<(), Refusal>(())
    /// ```
    pub fn offer(&mut self, event_type: u8, body: &[u8]) -> Result<Offer<'_>, Refusal> {
        let mut kind = 0;
        // a set grows by one entry at most, and by a byte for each entry where the first tag comes
        let entry = TAGGED_HEAD + MAX_TAG + INTERVAL_LEN;
        let room = LONGEST_SET.min(self.bytes.len() + self.bytes.len() / ENTRY_HEAD + entry);
        let next = sys::written(room, |out, len| unsafe {
            sys::gtid_offer(
                self.bytes.as_ptr(),
                self.bytes.len(),
                event_type,
                body.as_ptr(),
                body.len(),
                out.as_mut_ptr(),
                out.len(),
                &mut kind,
                len,
            )
        })?;
        let answer = match kind {
            TAKEN => Offered::Taken,
            ALREADY_THERE => Offered::AlreadyThere,
            _ => Offered::NoId,
        };
        Ok(Offer {
            set: self,
            next,
            answer,
        })
    }

    /// Whether an id is a member; no tag is a tag without bytes. What can be no id is no member. Many are asked for at once by a set that has
    /// them: [`is_subset`](ResumeSet::is_subset).
    ///
    /// ```
    /// assert!(!gtid_resume::ResumeSet::empty().contains(&[0; 16], b"", 1));
    /// ```
    pub fn contains(&self, sid: &[u8; UUID_LEN], tag: &[u8], gno: u64) -> bool {
        let mut present = 0;
        let set = &self.bytes;
        let number = unsafe {
            sys::gtid_contains(
                set.as_ptr(),
                set.len(),
                sid.as_ptr(),
                sid.len(),
                tag.as_ptr(),
                tag.len(),
                gno,
                &mut present,
            )
        };
        number == 0 && present == 1
    }

    /// How many entries (a uuid with a tag or without) it has, and how many intervals of transaction numbers.
    ///
    /// ```
    /// assert_eq!(gtid_resume::ResumeSet::empty().counts(), (0, 0));
    /// ```
    pub fn counts(&self) -> (u64, u64) {
        counts(&self.bytes).expect("the bytes are a set")
    }

    /// How many entries, intervals and ids it has. A [`Report`] tells the same of many sets.
    ///
    /// Each committed offer that was answered [`Offered::Taken`] adds one id, and no other offer does.
    ///
    /// ```
    /// use gtid_resume::{GtidEvent, ResumeSet, GTID_EVENT};
    ///
    /// let mut set = ResumeSet::empty();
    /// for gno in [6, 7, 6] {
    ///     set.offer(GTID_EVENT, &GtidEvent::new([7; 16], gno).write()?)?.commit();
    /// }
    /// assert_eq!(set.totals().ids, 2); // 6 was there when it came again
    /// # Ok::<(), gtid_resume::Refusal>(())
    /// ```
    pub fn totals(&self) -> Counts {
        let counts = Report::new().add(self);
        counts.expect("the bytes are a set, and the first of the report")
    }

    /// The entries, in the set's order: rising by uuid, then without a tag before those with one. Intervals rise too, with a gap between
    /// neighbours.
    ///
    /// ```
    /// use gtid_resume::{GtidEvent, ResumeSet, GTID_EVENT};
    ///
    /// let mut set = ResumeSet::empty();
    /// for gno in [1, 3, 2, 9] {
    ///     set.offer(GTID_EVENT, &GtidEvent::new([7; 16], gno).write()?)?.commit();
    /// }
    /// let entry = set.entries().next().expect("one uuid");
    /// assert_eq!((entry.uuid(), entry.tag()), (&[7; 16], &b""[..]));
    /// assert!(entry.intervals().eq([(1, 4), (9, 10)])); // 1 to 3, and 9
    /// # Ok::<(), gtid_resume::Refusal>(())
    /// ```
    pub fn entries(&self) -> impl ExactSizeIterator<Item = Entry<'_>> {
        let (previous, _) = PreviousGtidsEvent::read(&self.bytes).expect("a set is such a body");
        previous.sids()
    }

    /// The bytes to save, where [`save`](ResumeSet::save) isn't used.
    ///
    /// ```
    /// use gtid_resume::{GtidEvent, ResumeSet, GTID_EVENT};
    ///
    /// let mut set = ResumeSet::empty();
    /// set.offer(GTID_EVENT, &GtidEvent::new([7; 16], 1).write()?)?.commit();
    /// assert_eq!(ResumeSet::from_bytes(set.as_bytes().to_vec())?, set);
    /// # Ok::<(), gtid_resume::Refusal>(())
    /// ```
    pub fn as_bytes(&self) -> &[u8] {
        &self.bytes
    }
}

fn counts(bytes: &[u8]) -> Result<(u64, u64), Refusal> {
    let (mut entries, mut intervals) = (0, 0);
    let number =
        unsafe { sys::gtid_check_set(bytes.as_ptr(), bytes.len(), &mut entries, &mut intervals) };
    Refusal::unless_zero(number)?;
    Ok((entries, intervals))
}
