//! Month's end in exact numbers.
use crate::numbers::{LONGEST_REPORT, REPORT_LEN};
use crate::{sys, Refusal, ResumeSet};
use std::fmt;

/// How much is in a set, or in all sets of a report together.
///
/// ```
/// use gtid_resume::{Counts, GtidEvent, ResumeSet, GTID_EVENT};
///
/// let mut set = ResumeSet::empty();
/// for gno in [1, 3, 2, 9] {
///     set.offer(GTID_EVENT, &GtidEvent::new([7; 16], gno).write()?)?.commit();
/// }
/// // one uuid, with 1 to 3 and 9
/// assert_eq!(set.totals(), Counts { entries: 1, intervals: 2, ids: 4 });
/// # Ok::<(), gtid_resume::Refusal>(())
/// ```
#[derive(Clone, Copy, Debug, Default, PartialEq, Eq, Hash)]
pub struct Counts {
    /// The entries: a uuid with a tag or without.
    pub entries: u64,
    /// The intervals of transaction numbers.
    pub intervals: u64,
    /// The ids. An entry has fewer than 2^63 of them, but a set can have 384 entries.
    pub ids: u128,
}

/// A report over saved sets, up to [`MAX_SETS`](crate::MAX_SETS), that are given one after another: how many entries, intervals and ids each
/// has, and the sums over all. An id that is in two sets counts twice. (Their [`union`](ResumeSet::union) has it once.)
///
/// Its text has a line for each set, in the order in which they were added, `set ENTRIES INTERVALS HIGH LOW`, and at last
/// `sum ENTRIES INTERVALS HIGH LOW`. The ids are in two words: there are HIGH times 2^64 and LOW. What is no set has the line `refused 14`.
///
/// ```
/// use gtid_resume::{Refusal, Report, ResumeSet};
///
/// # use gtid_resume::{GtidEvent, GTID_EVENT};
/// # fn set_of(gnos: std::ops::RangeInclusive<u64>) -> Result<ResumeSet, Refusal> {
/// #     let mut set = ResumeSet::empty();
/// #     for gno in gnos {
/// #         set.offer(GTID_EVENT, &GtidEvent::new([7; 16], gno).write()?)?.commit();
/// #     }
/// #     Ok(set)
/// # }
/// // transactions of one stand, as two followers took them, and a file that is damaged
/// let (first, second) = (set_of(1..=5)?, set_of(4..=8)?);
/// let mut report = Report::new();
/// assert_eq!(report.add(&first)?.ids, 5);
/// assert_eq!(report.add_bytes(b"damaged"), Err(Refusal::NotASet));
/// assert_eq!(report.add(&second)?.ids, 5);
/// assert_eq!(report.sum().ids, 10);
/// assert_eq!(
///     report.to_string(),
///     "set 1 1 0 5\n\
///      refused 14\n\
///      set 1 1 0 5\n\
///      sum 2 2 0 10\n",
/// );
/// # Ok::<(), Refusal>(())
/// ```
#[derive(Clone)]
pub struct Report {
    bytes: [u8; REPORT_LEN],
}

impl Report {
    /// A report over no set.
    ///
    /// ```
    /// assert_eq!(gtid_resume::Report::new().to_text(), "sum 0 0 0 0\n");
    /// ```
    pub fn new() -> Self {
        Report {
            bytes: [0; REPORT_LEN],
        }
    }

    /// Adds a set, and tells how much is in it.
    ///
    /// # Errors
    ///
    /// [`Refusal::TooLong`] if there are [`MAX_SETS`](crate::MAX_SETS) already. The report stays as it was: begin another one.
    ///
    /// ```
    /// use gtid_resume::{Counts, Report, ResumeSet};
    ///
    /// let mut report = Report::new();
    /// assert_eq!(report.add(&ResumeSet::empty())?, Counts::default());
    /// assert_eq!(report.to_text(), "set 0 0 0 0\nsum 0 0 0 0\n");
    /// # Ok::<(), gtid_resume::Refusal>(())
    /// ```
    pub fn add(&mut self, set: &ResumeSet) -> Result<Counts, Refusal> {
        self.add_bytes(set.as_bytes())
    }

    /// Adds a set as it was saved, and tells how much is in it. So a file that is damaged has its line.
    ///
    /// # Errors
    ///
    /// [`Refusal::TooLong`] if there are [`MAX_SETS`](crate::MAX_SETS) already, whatever the bytes are: they aren't read, and the report stays
    /// as it was.
    ///
    /// [`Refusal::NotASet`] if the bytes are none. They are one of the report's sets nevertheless: they have the line `refused 14`, but add
    /// nothing to the sums.
    ///
    /// ```
    /// use gtid_resume::{Refusal, Report};
    ///
    /// let mut report = Report::new();
    /// assert_eq!(report.add_bytes(b"damaged"), Err(Refusal::NotASet));
    /// assert_eq!(report.add_bytes(&[0; 8])?.ids, 0);
    /// assert_eq!(report.to_text(), "refused 14\nset 0 0 0 0\nsum 0 0 0 0\n");
    /// # Ok::<(), Refusal>(())
    /// ```
    pub fn add_bytes(&mut self, set: &[u8]) -> Result<Counts, Refusal> {
        let report = &mut self.bytes;
        counted(|entries, intervals, high, low| unsafe {
            sys::gtid_report_add(
                report.as_mut_ptr(),
                report.len(),
                set.as_ptr(),
                set.len(),
                entries,
                intervals,
                high,
                low,
            )
        })
    }

    /// The sums over all sets, as the last line has them.
    ///
    /// ```
    /// use gtid_resume::{Counts, Report};
    ///
    /// assert_eq!(Report::new().sum(), Counts::default());
    /// ```
    pub fn sum(&self) -> Counts {
        let report = &self.bytes;
        let sums = counted(|entries, intervals, high, low| unsafe {
            sys::gtid_report_sum(report.as_ptr(), report.len(), entries, intervals, high, low)
        });
        sums.expect("the bytes are a report")
    }

    /// The text, which the report also shows as. Every line ends in a newline, so print it with `print!`.
    ///
    /// ```
    /// use gtid_resume::{Report, ResumeSet};
    ///
    /// let mut report = Report::new();
    /// report.add(&ResumeSet::empty())?;
    /// print!("{report}");
    /// # assert_eq!(report.to_string(), report.to_text());
    /// # Ok::<(), gtid_resume::Refusal>(())
    /// ```
    pub fn to_text(&self) -> String {
        let report = &self.bytes;
        let text = sys::written(LONGEST_REPORT, |out, len| unsafe {
            sys::gtid_report_write(
                report.as_ptr(),
                report.len(),
                out.as_mut_ptr(),
                out.len(),
                len,
            )
        });
        String::from_utf8(text.expect("every report fits")).expect("every report is ASCII")
    }
}

/// Lends a call the four numbers that it hands out.
fn counted(
    call: impl FnOnce(&mut u64, &mut u64, &mut u64, &mut u64) -> u8,
) -> Result<Counts, Refusal> {
    let (mut entries, mut intervals, mut high, mut low) = (0, 0, 0, 0);
    let number = call(&mut entries, &mut intervals, &mut high, &mut low);
    Refusal::unless_zero(number)?;
    Ok(Counts {
        entries,
        intervals,
        ids: u128::from(high) << 64 | u128::from(low),
    })
}

impl Default for Report {
    fn default() -> Self {
        Report::new()
    }
}

impl fmt::Display for Report {
    fn fmt(&self, f: &mut fmt::Formatter<'_>) -> fmt::Result {
        f.write_str(&self.to_text())
    }
}

impl fmt::Debug for Report {
    fn fmt(&self, f: &mut fmt::Formatter<'_>) -> fmt::Result {
        f.debug_tuple("Report").field(&self.to_text()).finish()
    }
}
