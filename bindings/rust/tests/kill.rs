//! The follower is killed two hundred times, at any moment, and in the end each transaction is in the tool once. Every second start finds the
//! same events with checksums.
use gtid_resume::{GtidEvent, ResumeSet, ANONYMOUS_GTID_EVENT};
use std::collections::{HashMap, HashSet};
use std::env;
use std::fs::{self, File};
use std::io::Write;
use std::os::unix::process::ExitStatusExt;
use std::process::{ExitStatus, Stdio};
use std::thread;
use std::time::{Duration, Instant};

mod common;
use common::{follower, opening, Binlog, Folder, Random};

const KILLS: usize = 200;
/// For a run without kills, about.
const UNBROKEN_SECONDS: f64 = 4.0;
/// Each start goes over the whole binlog again, so that the test's time grows with its length and with the kills.
const MOST_TRANSACTIONS: usize = 600;
const LEAST_TRANSACTIONS: usize = 300;
/// Then the test fails, whatever it is at. GTID_KILL_SECONDS names more for a slow machine.
const ALL_SECONDS: u64 = 60;
const SIGKILL: i32 = 9;

/// What is left of the test's time.
struct Clock(Instant);

impl Clock {
    fn new() -> Clock {
        let named = env::var("GTID_KILL_SECONDS").ok();
        let seconds = named.map_or(ALL_SECONDS, |seconds| seconds.parse().unwrap());
        Clock(Instant::now() + Duration::from_secs(seconds))
    }

    fn left(&self) -> Duration {
        let left = self.0.saturating_duration_since(Instant::now());
        assert!(!left.is_zero(), "the time is over (see GTID_KILL_SECONDS)");
        left
    }
}

/// The lines that the tool must have in the end.
#[derive(Default)]
struct Wanted {
    /// Once.
    with_id: Vec<String>,
    /// At least once.
    anonymous: Vec<String>,
}

/// The measuring stand: what it has sent, and what a follower must make of it.
struct Stand {
    binlog: Binlog,
    wanted: Wanted,
    set: ResumeSet,
    had: HashSet<String>,
    sent: Vec<(GtidEvent, Vec<String>)>,
    /// How many transactions each uuid and tag has.
    counts: [u64; 5],
}

impl Stand {
    /// Of one uuid the transactions 1 to 40 came before.
    fn new() -> Stand {
        let id = |gno| GtidEvent::new([0xa1; 16], gno).gtid().to_string();
        let opening = opening(&[(0xa1, 40)]);
        Stand {
            binlog: Binlog::new(&opening),
            wanted: Wanted::default(),
            set: ResumeSet::take_in(&opening).unwrap(),
            had: (1..=40).map(id).collect(),
            sent: Vec::new(),
            counts: [0; 5],
        }
    }

    fn send(&mut self, event: GtidEvent, rows: Vec<String>) {
        let body = event.write().unwrap();
        self.binlog.transaction(event.event_type(), &body, &rows);
        self.set.offer(event.event_type(), &body).unwrap().commit();
        let id = event.gtid().to_string();
        if self.had.insert(id.clone()) {
            self.wanted.with_id.push(format!("{id} {}", rows.join(" ")));
        }
        self.sent.push((event, rows));
    }

    fn send_new(&mut self, nth: usize, random: &mut Random) {
        let key = random.below(5) as usize;
        // neighbours are swapped, so that gaps come and close
        let gno = 1 + (self.counts[key] ^ 1);
        self.counts[key] += 1;
        let event = match key {
            0 => GtidEvent::new([0xa1; 16], gno),
            1 => GtidEvent::new([0xb2; 16], gno),
            2 => GtidEvent::new([0xc3; 16], gno),
            3 => GtidEvent::new_tagged([0xc3; 16], b"depot_7", gno).unwrap(),
            _ => GtidEvent::new_tagged([0xc3; 16], b"bay_2", gno).unwrap(),
        };
        let rows = (0..random.below(4)).map(|row| format!("wheel-{nth}.{row}:28.4mm"));
        self.send(event, rows.collect());
    }

    fn send_again(&mut self, random: &mut Random) {
        let one = random.below(self.sent.len() as u64) as usize;
        let (event, rows) = self.sent[one].clone();
        self.send(event, rows);
    }

    fn send_anonymous(&mut self, nth: usize) {
        let row = format!("wheel-{nth}");
        self.wanted.anonymous.push(format!("anonymous {row}"));
        let body = GtidEvent::new([0; 16], 0).write().unwrap();
        self.binlog.transaction(ANONYMOUS_GTID_EVENT, &body, &[row]);
    }
}

fn stand(transactions: usize, random: &mut Random) -> Stand {
    let mut stand = Stand::new();
    for nth in 1..transactions {
        match nth {
            _ if nth % 100 == 50 => stand.send_anonymous(nth),
            _ if nth % 12 == 7 => stand.send_again(random),
            _ => stand.send_new(nth, random),
        }
    }
    // a follower that has saved this one has no work left
    stand.send(GtidEvent::new([0xff; 16], 1), vec!["last".to_string()]);
    stand
}

/// As many transactions as can be copied in that time: what one costs is little more than the save.
fn affordable(folder: &Folder) -> usize {
    let started = Instant::now();
    for _ in 0..20 {
        ResumeSet::empty().save(folder.file("set")).unwrap();
    }
    let one = started.elapsed().as_secs_f64() / 20.0;
    fs::remove_file(folder.file("set")).unwrap();
    ((UNBROKEN_SECONDS / one) as usize).clamp(LEAST_TRANSACTIONS, MOST_TRANSACTIONS)
}

/// What is wrong with the tool's lines.
fn faults(tool: &str, wanted: &Wanted) -> Vec<String> {
    let mut times: HashMap<&str, usize> = HashMap::new();
    for line in tool.lines() {
        *times.entry(line).or_default() += 1;
    }
    let mut faults = Vec::new();
    for line in &wanted.with_id {
        match times.remove(line.as_str()) {
            Some(1) => {}
            Some(more) => faults.push(format!("{more} times: {line}")),
            None => faults.push(format!("missing: {line}")),
        }
    }
    for line in &wanted.anonymous {
        if times.remove(line.as_str()).is_none() {
            faults.push(format!("missing: {line}"));
        }
    }
    faults.extend(times.keys().map(|line| format!("not wanted: {line}")));
    faults
}

fn assert_whole(folder: &Folder, stand: &Stand) {
    let tool = fs::read_to_string(folder.file("tool")).unwrap();
    let faults = faults(&tool, &stand.wanted);
    let first = &faults[..faults.len().min(5)];
    assert!(faults.is_empty(), "{} faults: {first:#?}", faults.len());
    let set = fs::read(folder.file("set")).unwrap();
    assert!(set == stand.set.as_bytes(), "another set than in one go");
}

/// How long a run takes that nothing breaks.
fn run(folder: &Folder, clock: &Clock) -> Duration {
    let started = Instant::now();
    let status = run_and_kill(folder, clock.left());
    clock.left();
    assert!(status.success(), "{status}");
    started.elapsed()
}

/// How a run ends that is killed after some time, unless it ends before.
fn run_and_kill(folder: &Folder, life: Duration) -> ExitStatus {
    let mut child = follower(folder).stderr(Stdio::inherit()).spawn().unwrap();
    let killed = Instant::now() + life;
    loop {
        let left = killed.saturating_duration_since(Instant::now());
        if left.is_zero() {
            child.kill().unwrap();
            return child.wait().unwrap();
        }
        if let Some(status) = child.try_wait().unwrap() {
            return status;
        }
        thread::sleep(left.min(Duration::from_millis(1)));
    }
}

/// What a kill can leave, but leaves seldom: half a line in the tool, and half a set beside the saved one.
fn leave_torn(folder: &Folder, random: &mut Random) {
    let half = &b"a1a1a1a1-a1a1-a1a1-a1a1-a1a1a1a1a1a1:41 wheel"[..random.below(45) as usize];
    if let Ok(mut tool) = File::options().append(true).open(folder.file("tool")) {
        tool.write_all(half).unwrap();
    }
    fs::write(folder.file("set.new"), half).unwrap();
}

struct Course {
    folder: Folder,
    stand: Stand,
    clock: Clock,
    longest_life: Duration,
    /// Those that left work undone, by the quarter of the work that they fell in.
    kills: [usize; 4],
    /// The binlog without checksums, and with them: the next start finds the first.
    forms: [Vec<u8>; 2],
}

impl Course {
    /// From the start on, a follower is killed and started again, until it ends by itself or enough were killed; then it may end.
    fn run_broken(&mut self, random: &mut Random) {
        for name in ["tool", "set"] {
            fs::remove_file(self.folder.file(name)).unwrap();
        }
        // on a machine that has become slower it may never get there
        let mut starts = KILLS * 3 / 2;
        while starts > 0 && self.kills() < KILLS && self.kill(random) {
            starts -= 1;
        }
        run(&self.folder, &self.clock);
        assert_whole(&self.folder, &self.stand);
    }

    /// Whether the follower was killed, and didn't end before.
    fn kill(&mut self, random: &mut Random) -> bool {
        fs::write(self.folder.file("events"), &self.forms[0]).unwrap();
        self.forms.swap(0, 1);
        let life = random.below(self.longest_life.as_micros() as u64);
        let life = Duration::from_micros(life).min(self.clock.left());
        let status = run_and_kill(&self.folder, life);
        if status.signal() != Some(SIGKILL) {
            assert!(status.success(), "{status}");
            return false;
        }
        let saved = fs::read(self.folder.file("set")).unwrap_or_default();
        if saved != self.stand.set.as_bytes() {
            self.kills[self.quarter()] += 1;
        }
        leave_torn(&self.folder, random);
        true
    }

    fn kills(&self) -> usize {
        self.kills.iter().sum()
    }

    fn quarter(&self) -> usize {
        let tool = fs::read_to_string(self.folder.file("tool")).unwrap_or_default();
        let anonymous = tool.matches("anonymous").count();
        let copied = tool.lines().count() - anonymous;
        (4 * copied / self.stand.wanted.with_id.len()).min(3)
    }
}

#[test]
fn no_kill_loses_or_doubles_a_transaction() {
    let started = Instant::now();
    let clock = Clock::new();
    let mut random = Random(0x6774_6964);
    let folder = Folder::new("kill");
    let transactions = affordable(&folder);
    let stand = stand(transactions, &mut random);
    fs::write(folder.file("events"), &stand.binlog.0).unwrap();

    let unbroken = run(&folder, &clock);
    assert_whole(&folder, &stand);
    let again = run(&folder, &clock);
    let forms = stand.binlog.both_forms();
    let mut course = Course {
        folder,
        stand,
        forms,
        clock,
        // long enough to get on near the end too, and so short that a run takes some hundred
        longest_life: again * 3 / 2 + unbroken / 200,
        kills: [0; 4],
    };

    let mut runs = 0;
    while course.kills() < KILLS {
        assert!(runs < KILLS, "the kills don't hit a follower at work");
        let before = course.kills();
        course.run_broken(&mut random);
        runs += 1;
        if course.kills() - before < KILLS / 2 {
            course.longest_life = course.longest_life * 2 / 3;
        }
    }
    println!(
        "kills {} (in the quarters of the work {:?}), runs {runs}, transactions {transactions}, seconds {:.0} (a run without kills {:.1})",
        course.kills(),
        course.kills,
        started.elapsed().as_secs_f64(),
        unbroken.as_secs_f64()
    );
}
