//! GTID events and the resume set, for Rust programs that follow a MySQL binlog.
//!
//! The work is done by the functions of the archive `libabi.a`, each of which is proved to answer and write what its definition says,
//! whatever bytes it is given. This crate lends them memory and turns their numbers into Rust's types; it is small, and it is tested, not
//! proved.
//!
//! The archive is for x86-64 Linux. `tools/archive` in the repository makes it (it is looked for in `target/staticlib` there, or in the
//! folder that GTID_LIB_DIR names); then depend on this crate by its path. On another machine build for x86-64 and emulate: the variables
//! that this takes stand in `tools/needs`. A call uses up to 270 KB of the stack.
//!
//! A follower's step, run for each transaction: offer its id, copy it and commit it in the tool, commit the offer, and save. In this order
//! no crash loses a transaction; [`ResumeSet::offer`] says what the tool must do about one that it is given twice.
//!
//! ```
//! use gtid_resume::{Offered, ResumeSet};
//! use std::{io, path::Path};
//!
//! # use gtid_resume::{GtidEvent, ANONYMOUS_GTID_EVENT, GTID_EVENT};
//! # struct Transaction { event_type: u8, body: Vec<u8> }
//! # struct Tool { copied: usize }
//! # impl Tool {
//! #     fn copy_and_commit(&mut self, _: &Transaction) -> io::Result<()> { self.copied += 1; Ok(()) }
//! # }
//! fn step(set: &mut ResumeSet, transaction: &Transaction, tool: &mut Tool, saved: &Path) -> io::Result<()> {
//!     let offer = set.offer(transaction.event_type, &transaction.body)?;
//!     match offer.answer() {
//!         Offered::AlreadyThere => return Ok(()), // the tool has it
//!         Offered::Taken => tool.copy_and_commit(transaction)?, // unless the tool knows the id
//!         Offered::NoId => tool.copy_and_commit(transaction)?, // anonymous: copied too, each time that it is offered
//!     }
//!     offer.commit();
//!     set.save(saved)
//! }
//! # let saved = &std::env::temp_dir().join(format!("gtid-step-{}", std::process::id()));
//! # let mut tool = Tool { copied: 0 };
//! # let mut set = ResumeSet::empty();
//! # for (event_type, gno) in [(GTID_EVENT, 6), (GTID_EVENT, 6), (ANONYMOUS_GTID_EVENT, 0)] {
//! #     let body = GtidEvent::new([7; 16], gno).write()?;
//! #     step(&mut set, &Transaction { event_type, body }, &mut tool, saved)?;
//! # }
//! # assert_eq!(tool.copied, 2);
//! # assert_eq!(ResumeSet::load(saved)?, set);
//! # std::fs::remove_file(saved)?;
//! # Ok::<(), io::Error>(())
//! ```
//!
//! A binlog file is read as it arrives, in chunks that end anywhere, by a [`BinlogReader`]: it offers the GTID events that it comes to, and
//! says which set is to be saved with each.
//!
//! Two sets are compared by [`ResumeSet::is_subset`], which shows a gap where a new binlog file begins, and by [`ResumeSet::is_superset`]. They
//! make a third one by [`ResumeSet::union`], [`ResumeSet::intersection`] and [`ResumeSet::difference`], or `&a | &b`, `&a & &b` and `&a - &b`.
//!
//! How much is in a set is told by [`ResumeSet::totals`]. A [`Report`] tells it of up to 64 saved sets, with the sums, as numbers and as text.
//!
//! `examples/follower.rs` is a whole follower, with a tool that recognises ids. `tests/kill.rs` kills it two hundred times and looks for what
//! is missing.
#![deny(missing_docs)]

mod binlog;
mod event;
mod fields;
mod gtid;
mod numbers;
mod previous;
mod refusal;
mod report;
mod saved;
mod set;
mod sys;
mod two_sets;

pub use binlog::{BinlogReader, Checksums, Feed, Told, Walked};
pub use event::{GtidEvent, GtidRead};
pub use fields::{Field, Fields, FieldsIter};
pub use gtid::Gtid;
pub use numbers::{
    ANONYMOUS_GTID_EVENT, CHECKSUM_LEN, EVENT_HEADER_LEN, GTID_EVENT, GTID_TAGGED_LOG_EVENT,
    HIGHEST_GNO, LONGEST_EVENT, LONGEST_REPORT, LONGEST_SET, LONGEST_TEXT, MAX_BODY, MAX_ENTRIES,
    MAX_INTERVALS, MAX_OF_ENTRY, MAX_SETS, MAX_TAG, PREVIOUS_GTIDS_EVENT,
};
pub use previous::{Entry, PreviousGtidsEvent};
pub use refusal::Refusal;
pub use report::{Counts, Report};
pub use set::{Offer, Offered, ResumeSet};

/// The body of a Previous-GTIDs event (type 35) written anew, as the server writes it: with tags only if some entry has one, and every length
/// in its shortest form.
///
/// # Errors
///
/// [`Refusal::TooLong`], [`Refusal::Ended`] or [`Refusal::BadTag`].
///
/// ```
/// // an empty body that claims tags is written as eight zero bytes
/// assert_eq!(gtid_resume::rewrite(&[0, 0, 0, 0, 0, 0, 0, 1])?, [0; 8]);
/// # Ok::<(), gtid_resume::Refusal>(())
/// ```
pub fn rewrite(body: &[u8]) -> Result<Vec<u8>, Refusal> {
    // never longer than what was read
    sys::written(body.len(), |out, len| unsafe {
        sys::gtid_rewrite(body.as_ptr(), body.len(), out.as_mut_ptr(), out.len(), len)
    })
}

/// The variable-length unsigned integer at the front of some bytes: its value, and how many bytes were used.
///
/// # Errors
///
/// [`Refusal::Ended`] if the bytes end inside it.
///
/// ```
/// use gtid_resume::{read_varlen_uint, Refusal};
///
/// assert_eq!(read_varlen_uint(&[5, 0, 9]), Ok((1, 2)));
/// assert_eq!(read_varlen_uint(&[5]), Err(Refusal::Ended));
/// ```
pub fn read_varlen_uint(bytes: &[u8]) -> Result<(u64, usize), Refusal> {
    let (mut value, mut used) = (0, 0);
    let number =
        unsafe { sys::gtid_read_varlen_uint(bytes.as_ptr(), bytes.len(), &mut value, &mut used) };
    Refusal::unless_zero(number)?;
    Ok((value, used))
}

/// The text of an event, one line or more; what is refused is said in the text. A tagged event (type 42) that lacks its uuid or its number is
/// refused with 21, as in an offer.
///
/// ```
/// assert_eq!(gtid_resume::list(7, &[]), "refused 8\n");
/// // version byte, size, last non-ignorable id, and the tag alone
/// assert_eq!(gtid_resume::list(42, &[2, 12, 0, 6, 2, b'a']), "refused 21\n");
/// ```
pub fn list(event_type: u8, body: &[u8]) -> String {
    let mut input = Vec::with_capacity(1 + body.len());
    input.push(event_type);
    input.extend_from_slice(body);
    let text = sys::written(LONGEST_TEXT, |out, len| unsafe {
        sys::gtid_list(
            input.as_ptr(),
            input.len(),
            out.as_mut_ptr(),
            out.len(),
            len,
        )
    });
    String::from_utf8(text.expect("every text fits")).expect("every text is ASCII")
}
