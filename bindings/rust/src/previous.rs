use crate::numbers::{INTERVAL_LEN, UUID_LEN};
use crate::sys;
use crate::Refusal;

/// The entries of a Previous-GTIDs event, the opening event of a binlog. They stay in the event's body, and nothing is copied.
///
/// ```
/// let (previous, used) = gtid_resume::PreviousGtidsEvent::read(&[0; 8])?;
/// assert_eq!((previous.len(), used), (0, 8));
/// # Ok::<(), gtid_resume::Refusal>(())
/// ```
#[derive(Clone, Copy, Debug)]
pub struct PreviousGtidsEvent<'a> {
    /// The header and the entries, and nothing behind them.
    body: &'a [u8],
    len: usize,
}

/// An entry: a uuid with a tag or without, and the intervals of its transaction numbers, as they stand in the body.
///
/// ```
/// # let mut body = vec![1, 0, 0, 0, 0, 0, 0, 0];
/// # body.extend([7; 16]);
/// # for number in [1u64, 1, 6] {
/// #     body.extend(number.to_le_bytes());
/// # }
/// let (previous, _) = gtid_resume::PreviousGtidsEvent::read(&body)?;
/// for entry in previous.sids() {
///     println!("{:02x?} {:?}", entry.uuid(), entry.intervals().collect::<Vec<_>>());
/// }
/// # Ok::<(), gtid_resume::Refusal>(())
/// ```
#[derive(Clone, Copy, Debug, PartialEq, Eq, Hash)]
pub struct Entry<'a> {
    uuid: &'a [u8; UUID_LEN],
    tag: &'a [u8],
    /// Sixteen bytes each.
    intervals: &'a [u8],
}

impl<'a> PreviousGtidsEvent<'a> {
    /// Reads the body of a Previous-GTIDs event (type 35), without header and checksum: its entries, and how many bytes were used.
    ///
    /// # Errors
    ///
    /// [`Refusal::TooLong`], [`Refusal::Ended`] or [`Refusal::BadTag`].
    ///
    /// ```
    /// use gtid_resume::{PreviousGtidsEvent, Refusal};
    ///
    /// // one uuid with the transactions 1 to 5
    /// let mut body = vec![1, 0, 0, 0, 0, 0, 0, 0];
    /// body.extend([7; 16]);
    /// for number in [1u64, 1, 6] {
    ///     body.extend(number.to_le_bytes());
    /// }
    /// let (previous, used) = PreviousGtidsEvent::read(&body)?;
    /// assert_eq!(used, 48);
    /// for entry in previous.sids() {
    ///     assert_eq!((entry.uuid(), entry.tag()), (&[7; 16], &b""[..]));
    ///     assert!(entry.intervals().eq([(1, 6)]));
    /// }
    /// assert_eq!(PreviousGtidsEvent::read(&body[..47]).unwrap_err(), Refusal::Ended);
    /// # Ok::<(), Refusal>(())
    /// ```
    pub fn read(body: &'a [u8]) -> Result<(PreviousGtidsEvent<'a>, usize), Refusal> {
        let (mut entries, mut used) = (0, 0);
        let number =
            unsafe { sys::gtid_read_previous(body.as_ptr(), body.len(), &mut entries, &mut used) };
        Refusal::unless_zero(number)?;
        // each entry has bytes of its own, so that their number is a usize
        let previous = PreviousGtidsEvent {
            body: &body[..used],
            len: entries as usize,
        };
        Ok((previous, used))
    }

    /// How many entries there are.
    ///
    /// ```
    /// assert_eq!(gtid_resume::PreviousGtidsEvent::read(&[0; 8])?.0.len(), 0);
    /// # Ok::<(), gtid_resume::Refusal>(())
    /// ```
    pub fn len(&self) -> usize {
        self.len
    }

    /// Whether there are none.
    ///
    /// ```
    /// assert!(gtid_resume::PreviousGtidsEvent::read(&[0; 8])?.0.is_empty());
    /// # Ok::<(), gtid_resume::Refusal>(())
    /// ```
    pub fn is_empty(&self) -> bool {
        self.len == 0
    }

    /// The entries, in the body's order.
    ///
    /// ```
    /// let mut body = vec![2, 0, 0, 0, 0, 0, 0, 0];
    /// for uuid in [9, 4] {
    ///     body.extend([uuid; 16]);
    ///     body.extend([0; 8]); // no intervals
    /// }
    /// let (previous, _) = gtid_resume::PreviousGtidsEvent::read(&body)?;
    /// assert!(previous.sids().map(|entry| entry.uuid()[0]).eq([9, 4]));
    /// # Ok::<(), gtid_resume::Refusal>(())
    /// ```
    pub fn sids(&self) -> impl ExactSizeIterator<Item = Entry<'a>> {
        Entries {
            body: self.body,
            at: 8,
            left: self.len,
        }
    }
}

impl<'a> Entry<'a> {
    /// The uuid of the server that gave the ids.
    ///
    /// ```
    /// # let mut body = vec![1, 0, 0, 0, 0, 0, 0, 0];
    /// # body.extend([7; 16]);
    /// # body.extend([0; 8]);
    /// let (previous, _) = gtid_resume::PreviousGtidsEvent::read(&body)?;
    /// assert_eq!(previous.sids().next().unwrap().uuid(), &body[8..24]);
    /// # Ok::<(), gtid_resume::Refusal>(())
    /// ```
    pub fn uuid(&self) -> &'a [u8; UUID_LEN] {
        self.uuid
    }

    /// The tag's bytes, none where there is no tag.
    ///
    /// ```
    /// let mut body = vec![1, 1, 0, 0, 0, 0, 0, 1]; // one entry, with tags
    /// body.extend([7; 16]);
    /// body.push(10); // twice its length
    /// body.extend(b"depot");
    /// body.extend([0; 8]);
    /// let (previous, _) = gtid_resume::PreviousGtidsEvent::read(&body)?;
    /// assert_eq!(previous.sids().next().unwrap().tag(), b"depot");
    /// # Ok::<(), gtid_resume::Refusal>(())
    /// ```
    pub fn tag(&self) -> &'a [u8] {
        self.tag
    }

    /// The intervals, in the body's order: where each starts, and the end that isn't reached. Those of a set obey the set's rules; those of
    /// an event are not judged, which [`ResumeSet::take_in`] does.
    ///
    /// [`ResumeSet::take_in`]: crate::ResumeSet::take_in
    ///
    /// ```
    /// # let mut body = vec![1, 0, 0, 0, 0, 0, 0, 0];
    /// # body.extend([7; 16]);
    /// # for number in [2u64, 1, 6, 9, 10] {
    /// #     body.extend(number.to_le_bytes());
    /// # }
    /// let (previous, _) = gtid_resume::PreviousGtidsEvent::read(&body)?;
    /// let intervals = previous.sids().next().unwrap().intervals();
    /// assert_eq!(intervals.len(), 2);
    /// assert_eq!(intervals.map(|(start, end)| end - start).sum::<u64>(), 6);
    /// # Ok::<(), gtid_resume::Refusal>(())
    /// ```
    pub fn intervals(&self) -> impl ExactSizeIterator<Item = (u64, u64)> + 'a {
        let number = |bytes: &[u8]| u64::from_le_bytes(bytes.try_into().expect("eight bytes"));
        self.intervals
            .chunks_exact(INTERVAL_LEN)
            .map(move |pair| (number(&pair[..8]), number(&pair[8..])))
    }
}

/// The entries from a place on.
struct Entries<'a> {
    body: &'a [u8],
    at: usize,
    left: usize,
}

impl<'a> Iterator for Entries<'a> {
    type Item = Entry<'a>;

    fn next(&mut self) -> Option<Entry<'a>> {
        let (body, at) = (self.body, self.at);
        self.left = self.left.checked_sub(1)?;
        let (mut tag_len, mut intervals, mut first, mut next) = (0, 0, 0, 0);
        let number = unsafe {
            sys::gtid_read_entry(
                body.as_ptr(),
                body.len(),
                at,
                &mut tag_len,
                &mut intervals,
                &mut first,
                &mut next,
            )
        };
        assert_eq!(number, 0, "the whole body was read before");
        self.at = next;
        Some(Entry {
            uuid: body[at..at + UUID_LEN].try_into().expect("sixteen bytes"),
            tag: &body[first - 8 - tag_len..first - 8],
            intervals: &body[first..next],
        })
    }

    fn size_hint(&self) -> (usize, Option<usize>) {
        (self.left, Some(self.left))
    }
}

impl ExactSizeIterator for Entries<'_> {}
