//! Compares this repository's answers with those of the given files of mysql_common 0.38.2 (README.md).
//!
//!     compare [CASES [SEED]]      PROBE: the path of the program probe; PROBE_RUNNER: a program that runs it

mod case;
mod differences;
mod generate;
#[cfg(archive)]
mod linked;
mod ours;
mod random;
mod table;
mod words;

use case::{Case, Input};
use ours::Ours;
use random::Random;
use std::{env, io, panic, process::ExitCode, thread, time::Instant};
use table::Table;
use theirs::answers::Told;
#[cfg(archive)]
use theirs::numbers::refusal::ENDED;

/// How many cases are asked in one go, and how many bytes of requests at most.
const BATCH: usize = 40_000;
const BATCH_BYTES: usize = 8_000_000;

/// So many unsorted differences are printed in full; the rest is counted.
const PRINTED: u64 = 200;

/// So many cases come in every run, for the progress alone.
const FIXED: u64 = 796_224;

/// One that answers for the repository, and what was found of it.
struct Side {
    ours: Box<dyn Ours>,
    table: Table,
    /// By kind: the unsorted difference with the shortest input.
    smallest: Vec<Option<(usize, String)>>,
}

struct Comparison {
    sides: Vec<Side>,
    batch: Vec<Case>,
    bytes: usize,
    asked: u64,
    wanted: u64,
    failed: Option<io::Error>,
}

impl Comparison {
    fn put(&mut self, case: Case) {
        self.bytes += case.body().len() + 150;
        self.batch.push(case);
        if self.batch.len() >= BATCH || self.bytes >= BATCH_BYTES {
            self.compare();
        }
    }

    fn compare(&mut self) {
        let batch = std::mem::take(&mut self.batch);
        self.bytes = 0;
        if self.failed.is_some() || batch.is_empty() {
            return;
        }
        let (ours, theirs) = thread::scope(|scope| {
            let theirs = scope.spawn(|| batch.iter().map(Case::theirs).collect::<Vec<_>>());
            let ours: Vec<_> = self
                .sides
                .iter()
                .map(|side| answers_of(side.ours.as_ref(), &batch))
                .collect();
            (ours, theirs.join().expect("panics of the crate are caught"))
        });
        for (side, answers) in self.sides.iter_mut().zip(ours) {
            match answers {
                Ok(answers) => answers
                    .iter()
                    .for_each(|(place, line)| side.judge(&batch[*place], line, &theirs[*place])),
                Err(error) => self.failed = Some(error),
            }
        }
        let before = self.asked;
        self.asked += batch.len() as u64;
        self.show_progress(before);
    }

    /// A line on standard error for every twentieth of the cases.
    fn show_progress(&self, before: u64) {
        let twentieths = |asked: u64| asked * 20 / self.wanted.max(1);
        if twentieths(before) < twentieths(self.asked) {
            eprintln!("compare: {} cases of {}", self.asked, self.wanted);
        }
    }
}

impl Side {
    fn new(ours: Box<dyn Ours>) -> Self {
        Self {
            ours,
            table: Table::default(),
            smallest: vec![None; case::KINDS.len()],
        }
    }

    fn judge(&mut self, case: &Case, ours: &str, theirs: &Told<String>) {
        let kind = case.kind.row();
        let row = &mut self.table.rows[kind];
        if differences::equal(ours, theirs) {
            match theirs {
                Told::Ok(_) => row.accepted += 1,
                _ => row.refused += 1,
            }
            return;
        }
        if let Some(number) = differences::sort(case, ours, theirs) {
            row.differences[number - 1] += 1;
            return;
        }
        row.unsorted += 1;
        let told = described(case, ours, theirs);
        if self.table.whole().unsorted <= PRINTED {
            println!("{told}");
        }
        let size = case.part_a().len();
        let smallest = &mut self.smallest[kind];
        if smallest.as_ref().is_none_or(|(least, _)| size < *least) {
            *smallest = Some((size, told));
        }
    }

    /// Prints what was found; how many differences are unsorted.
    fn print(&self) -> u64 {
        println!("Ours: {}.", self.ours.name());
        println!();
        self.table.print();
        let unsorted = self.table.whole().unsorted;
        println!();
        if unsorted == 0 {
            println!("Every difference is one of D1 to D{}.", differences::COUNT);
        } else {
            println!(
                "{unsorted} differences are not among D1 to D{}; of each kind the shortest:",
                differences::COUNT
            );
            self.smallest
                .iter()
                .flatten()
                .for_each(|(_, told)| println!("{told}"));
        }
        println!();
        unsorted
    }
}

/// The answers of a side to the cases that it has, each with the case's place.
fn answers_of(side: &dyn Ours, batch: &[Case]) -> io::Result<Vec<(usize, String)>> {
    let places: Vec<usize> = (0..batch.len())
        .filter(|place| side.has(&batch[*place]))
        .collect();
    let lines = if places.len() == batch.len() {
        side.ask(batch)?
    } else {
        let cases: Vec<Case> = places.iter().map(|place| batch[*place].clone()).collect();
        side.ask(&cases)?
    };
    Ok(places.into_iter().zip(lines).collect())
}

/// Asks the archive and the crate for call 1 with every input of three bytes, and prints what was found; how many are
/// unequal.
#[cfg(archive)]
fn every_three_bytes() -> u64 {
    eprintln!("compare: every input of 3 bytes");
    let (mut equal, mut refused, mut unequal) = (0u64, 0u64, 0u64);
    for number in 0..1u32 << 24 {
        let [bytes @ .., _] = number.to_le_bytes();
        let lent = bytes;
        let ours = ours::Archive::read_uint(&lent);
        let mark = ours::changed(&lent, &bytes);
        let theirs = theirs::answers::read_uint(&bytes);
        let same = match &theirs {
            Told::Ok((value, used)) => ours == (0, *value, *used),
            Told::Refused(refusal) => ours == (ENDED, 0, 0) && refusal.number == Some(ENDED),
            _ => false,
        };
        if same && mark.is_empty() {
            equal += 1;
            refused += u64::from(ours.0 != 0);
            continue;
        }
        unequal += 1;
        if unequal <= PRINTED {
            let case = Case::bytes(case::Kind::ReadUint, 0, bytes.to_vec(), 0);
            let ours = ours::Archive::uint_line(ours) + mark;
            let theirs = theirs.map(words::value_and_used);
            println!("{}", described(&case, &ours, &theirs));
        }
    }
    let cases = equal + unequal;
    println!(
        "The archive, call 1, every input of 3 bytes: {cases} cases, {equal} equal, {refused} of these refused, {unequal} different."
    );
    unequal
}

fn described(case: &Case, ours: &str, theirs: &Told<String>) -> String {
    let input = match &case.input {
        Input::Bytes(_) => String::new(),
        other => format!(", {other:?}"),
    };
    format!(
        "not among D1 to D{}: call {} ({}), type {}, out_len {}{input}\n  A = {}\n  ours:   {ours}\n  theirs: {theirs:?}",
        differences::COUNT,
        case.kind.call(),
        case.kind.name(),
        case.event_type,
        case.out_len,
        words::hex(&case.part_a()),
    )
}

fn main() -> ExitCode {
    let numbers: Option<Vec<u64>> = env::args()
        .skip(1)
        .map(|word| word.replace([',', '_'], "").parse().ok())
        .collect();
    let Some(numbers) = numbers.filter(|numbers| numbers.len() <= 2) else {
        eprintln!("compare [CASES [SEED]]");
        return ExitCode::from(2);
    };
    let cases = numbers.first().copied().unwrap_or(4_000_000);
    let seed = numbers.get(1).copied().unwrap_or(1);
    let path = env::var("PROBE").unwrap_or_else(|_| "../target/bin/probe".to_owned());
    let runner = env::var("PROBE_RUNNER").ok();
    // Panics in the crate's files are answers here: they are caught, and not told on standard error.
    let told = panic::take_hook();
    panic::set_hook(Box::new(move |panic| {
        if !panic
            .location()
            .is_some_and(|location| location.file().contains("theirs/src/binlog/"))
        {
            told(panic);
        }
    }));

    let begun = Instant::now();
    let mut comparison = Comparison {
        sides: vec![Side::new(Box::new(ours::Probe { path, runner }))],
        batch: Vec::new(),
        bytes: 0,
        asked: 0,
        wanted: cases.max(FIXED),
        failed: None,
    };
    #[cfg(archive)]
    comparison.sides.push(Side::new(Box::new(ours::Archive)));
    let mut random = Random::new(seed);
    generate::fixed(&mut random, &mut |case| comparison.put(case));
    let fixed = comparison.asked + comparison.batch.len() as u64;
    while comparison.asked + (comparison.batch.len() as u64) < cases && comparison.failed.is_none()
    {
        comparison.put(generate::random(&mut random));
    }
    comparison.compare();
    if let Some(error) = comparison.failed {
        eprintln!("compare: ours failed: {error}");
        return ExitCode::from(2);
    }

    let (asked, seconds) = (comparison.asked, begun.elapsed().as_secs());
    println!(
        "{asked} cases, seed {seed} ({fixed} of them fixed, the others random), {seconds} seconds."
    );
    println!();
    let unsorted: u64 = comparison.sides.iter().map(Side::print).sum();
    #[cfg(archive)]
    let unsorted = unsorted + every_three_bytes();
    if unsorted == 0 {
        ExitCode::SUCCESS
    } else {
        ExitCode::FAILURE
    }
}
