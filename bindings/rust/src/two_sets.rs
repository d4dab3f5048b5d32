//! Work with two sets.
use crate::{sys, Refusal, ResumeSet};
use std::ops::{BitAnd, BitOr, Sub};

impl ResumeSet {
    /// The ids that are in this set or in the other; also `&a | &b`.
    ///
    /// A follower that goes on from such a set passes over what either of them has. So the tool must have the transactions of both.
    ///
    /// # Errors
    ///
    /// [`Refusal::Crowded`] if an entry of the result would have more than 1,024 intervals, else [`Refusal::Full`] if the result would have
    /// more than 384 entries or 2,560 intervals in all. Intervals that touch or overlap are joined before they are counted. Both sets are as
    /// they were: keep them as two, one that is only asked whether it has an id ([`contains`](ResumeSet::contains)), and one that is offered
    /// to, and saved.
    ///
    /// ```
    /// use gtid_resume::ResumeSet;
    ///
    /// # use gtid_resume::{GtidEvent, Refusal, GTID_EVENT};
    /// # fn set_of(gnos: std::ops::RangeInclusive<u64>) -> Result<ResumeSet, Refusal> {
    /// #     let mut set = ResumeSet::empty();
    /// #     for gno in gnos {
    /// #         set.offer(GTID_EVENT, &GtidEvent::new([7; 16], gno).write()?)?.commit();
    /// #     }
    /// #     Ok(set)
    /// # }
    /// // transactions of one stand, as two followers took them
    /// let (first, second) = (set_of(1..=5)?, set_of(4..=8)?);
    /// assert_eq!(first.union(&second)?, set_of(1..=8)?);
    /// assert_eq!((&first | &second)?, set_of(1..=8)?);
    /// # Ok::<(), Refusal>(())
    /// ```
    pub fn union(&self, other: &ResumeSet) -> Result<ResumeSet, Refusal> {
        of_two(sys::gtid_either, self, other)
    }

    /// The ids that are in this set and in the other; also `&a & &b`.
    ///
    /// # Errors
    ///
    /// [`Refusal::Crowded`] or [`Refusal::Full`], as for [`union`](ResumeSet::union). The result can pass a limit though both sets are well
    /// below it, since the intervals of one may be cut by those of the other: 1,000 and 1,000 can leave 1,999. A result that is refused isn't
    /// empty. It can be had in parts: [`take_in`](ResumeSet::take_in) makes a set of some of the entries, or of some intervals of one.
    ///
    /// ```
    /// use gtid_resume::ResumeSet;
    ///
    /// # use gtid_resume::{GtidEvent, Refusal, GTID_EVENT};
    /// # fn set_of(gnos: std::ops::RangeInclusive<u64>) -> Result<ResumeSet, Refusal> {
    /// #     let mut set = ResumeSet::empty();
    /// #     for gno in gnos {
    /// #         set.offer(GTID_EVENT, &GtidEvent::new([7; 16], gno).write()?)?.commit();
    /// #     }
    /// #     Ok(set)
    /// # }
    /// let (first, second) = (set_of(1..=5)?, set_of(4..=8)?);
    /// assert_eq!(first.intersection(&second)?, set_of(4..=5)?);
    /// assert_eq!((&first & &second)?, set_of(4..=5)?);
    /// # Ok::<(), Refusal>(())
    /// ```
    pub fn intersection(&self, other: &ResumeSet) -> Result<ResumeSet, Refusal> {
        of_two(sys::gtid_both, self, other)
    }

    /// The ids that are in this set and not in the other; also `&a - &b`. So it is told what a follower has missed:
    /// [`is_subset`](ResumeSet::is_subset) shows how.
    ///
    /// # Errors
    ///
    /// [`Refusal::Crowded`] or [`Refusal::Full`], as for [`intersection`](ResumeSet::intersection); of 1,000 intervals that 1,000 others cut
    /// 2,000 can be left. A result that is refused isn't empty: ids are missing, in more intervals than a set can have.
    ///
    /// ```
    /// use gtid_resume::ResumeSet;
    ///
    /// # use gtid_resume::{GtidEvent, Refusal, GTID_EVENT};
    /// # fn set_of(gnos: std::ops::RangeInclusive<u64>) -> Result<ResumeSet, Refusal> {
    /// #     let mut set = ResumeSet::empty();
    /// #     for gno in gnos {
    /// #         set.offer(GTID_EVENT, &GtidEvent::new([7; 16], gno).write()?)?.commit();
    /// #     }
    /// #     Ok(set)
    /// # }
    /// let (first, second) = (set_of(1..=5)?, set_of(4..=8)?);
    /// assert_eq!(first.difference(&second)?, set_of(1..=3)?);
    /// assert_eq!((&second - &first)?, set_of(6..=8)?);
    /// assert_eq!((&first - &first)?, ResumeSet::empty());
    /// # Ok::<(), Refusal>(())
    /// ```
    pub fn difference(&self, other: &ResumeSet) -> Result<ResumeSet, Refusal> {
        of_two(sys::gtid_without, self, other)
    }

    /// Whether all ids of this set are in the other. The empty set is a subset of every set, and every set is one of itself. It is never
    /// refused.
    ///
    /// A new binlog file begins with an event that lists all ids of the files before it. If the follower's set hasn't all of them, the
    /// follower missed the end of the last file. The [`difference`](ResumeSet::difference) is what it missed, and [`list`](crate::list) shows
    /// that to a person:
    ///
    /// ```
    /// use gtid_resume::{list, ResumeSet, PREVIOUS_GTIDS_EVENT};
    ///
    /// # fn opening(end: u64) -> Vec<u8> {
    /// #     let mut body = vec![1, 0, 0, 0, 0, 0, 0, 0];
    /// #     body.extend([7; 16]);
    /// #     for number in [1, 1, end] {
    /// #         body.extend(number.to_le_bytes());
    /// #     }
    /// #     body
    /// # }
    /// # let (set, opening) = (ResumeSet::take_in(&opening(6))?, opening(8));
    /// // the set has 1 to 5, and the new file's opening event lists 1 to 7
    /// let listed = ResumeSet::take_in(&opening)?;
    /// assert!(!listed.is_subset(&set));
    /// let missing = listed.difference(&set)?;
    /// assert_eq!(
    ///     list(PREVIOUS_GTIDS_EVENT, missing.as_bytes()),
    ///     "previous-gtids entries 1 intervals 1\n07070707-0707-0707-0707-070707070707:6-7\n",
    /// );
    /// # Ok::<(), gtid_resume::Refusal>(())
    /// ```
    pub fn is_subset(&self, other: &ResumeSet) -> bool {
        told(sys::gtid_within, self, other) == Ok(1)
    }

    /// Whether all ids of the other set are in this one. It is never refused.
    ///
    /// ```
    /// use gtid_resume::{GtidEvent, ResumeSet, GTID_EVENT};
    ///
    /// let mut set = ResumeSet::empty();
    /// let before = set.clone();
    /// set.offer(GTID_EVENT, &GtidEvent::new([7; 16], 1).write()?)?.commit();
    /// assert!(set.is_superset(&before) && !before.is_superset(&set));
    /// # Ok::<(), gtid_resume::Refusal>(())
    /// ```
    pub fn is_superset(&self, other: &ResumeSet) -> bool {
        other.is_subset(self)
    }

    /// The one of two sets that has all ids of the other: this one if it has, also where they are equal, else the other. It is lent on, not
    /// copied.
    ///
    /// After a switch of servers there are two opening sets, the old server's and the new one's. If the new server has all that the old one
    /// had, its set is the head, and the [`difference`](ResumeSet::difference) is what came since. A follower goes on from its own set in
    /// any case: an opening set has ids that it may not have copied.
    ///
    /// # Errors
    ///
    /// [`Refusal::Diverged`] if each has an id that the other lacks: then neither tells all that was done, and somebody has to look at both
    /// servers. The differences, both ways round, are what each lacks.
    ///
    /// ```
    /// use gtid_resume::{Refusal, ResumeSet};
    ///
    /// # use gtid_resume::{GtidEvent, GTID_EVENT};
    /// # fn set_of(gnos: std::ops::RangeInclusive<u64>) -> Result<ResumeSet, Refusal> {
    /// #     let mut set = ResumeSet::empty();
    /// #     for gno in gnos {
    /// #         set.offer(GTID_EVENT, &GtidEvent::new([7; 16], gno).write()?)?.commit();
    /// #     }
    /// #     Ok(set)
    /// # }
    /// let (old, new) = (set_of(1..=5)?, set_of(1..=8)?);
    /// assert!(std::ptr::eq(old.head(&new)?, &new));
    /// assert!(std::ptr::eq(new.head(&old)?, &new));
    /// // equal sets: the one that was asked
    /// let copy = new.clone();
    /// assert!(std::ptr::eq(new.head(&copy)?, &new));
    /// // 4 and 5 are the old server's alone, 6 to 8 the new one's
    /// let other = (&new - &set_of(4..=5)?)?;
    /// assert_eq!(old.head(&other), Err(Refusal::Diverged));
    /// # Ok::<(), Refusal>(())
    /// ```
    pub fn head<'a>(&'a self, other: &'a ResumeSet) -> Result<&'a ResumeSet, Refusal> {
        match told(sys::gtid_head, self, other)? {
            1 => Ok(self),
            _ => Ok(other),
        }
    }
}

/// A call that tells something of two sets, in a byte.
type Tells = unsafe extern "C" fn(*const u8, usize, *const u8, usize, *mut u8) -> u8;

fn told(call: Tells, first: &ResumeSet, second: &ResumeSet) -> Result<u8, Refusal> {
    let (first, second) = (first.as_bytes(), second.as_bytes());
    let mut said = 0;
    let number = unsafe {
        call(
            first.as_ptr(),
            first.len(),
            second.as_ptr(),
            second.len(),
            &mut said,
        )
    };
    Refusal::unless_zero(number).map(|()| said)
}

/// A call that writes a set made of two.
type Call =
    unsafe extern "C" fn(*const u8, usize, *const u8, usize, *mut u8, usize, *mut usize) -> u8;

fn of_two(call: Call, first: &ResumeSet, second: &ResumeSet) -> Result<ResumeSet, Refusal> {
    let (first, second) = (first.as_bytes(), second.as_bytes());
    ResumeSet::written(|out, len| unsafe {
        call(
            first.as_ptr(),
            first.len(),
            second.as_ptr(),
            second.len(),
            out.as_mut_ptr(),
            out.len(),
            len,
        )
    })
}

macro_rules! operators {
    ($($operator:ident $name:ident $method:ident,)*) => {
        $(
            #[doc = concat!("[`ResumeSet::", stringify!($method), "`]")]
            impl $operator<&ResumeSet> for &ResumeSet {
                type Output = Result<ResumeSet, Refusal>;

                fn $name(self, other: &ResumeSet) -> Self::Output {
                    self.$method(other)
                }
            }
        )*
    };
}

operators! {
    BitOr bitor union,
    BitAnd bitand intersection,
    Sub sub difference,
}
