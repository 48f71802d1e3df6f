//! A simulator to start from: a core of wulgach over storage of its own, a volume that a power failure may tear.
//!
//! On it runs a store with a log. A commit is a write of its record and an fsync, and the store acknowledges it when both completions have come, the write's first. The store submits both at once. In the right store the fsync is linked to the write, so that it is issued when that has ended. In the planted one it isn't: it may be issued while the write runs, and covers nothing of it.
//!
//! The simulator is the dispatcher: it issues and finishes requests in an order that a seed chooses, among those that the core allows. At some point the power fails. Of what may then be left, some images are tried: each acknowledged record must be in all of them. Beside it stands the generous rule, by which a write is safe if it had ended when the fsync ended: it finds nothing.
//!
//! The same program in C is `c/examples/simulator.c`, and prints the same.

use std::process::ExitCode;
use wulgach::{flags, Answer, Core, Entry, Error, Operation, Setup, Step, Volume};

const RECORD: usize = 8;
const COMMITS: usize = 4;
const REQUESTS: usize = 2 * COMMITS;
const RUNS: u64 = 1000;
const CRASHES: u64 = 8;
const CHOICE: usize = 128;

/// The log on its volume. The number that the volume gave to each request that was issued, 0 if none; and what the generous rule takes for safe.
struct Disk {
    volume: Volume,
    numbers: [u64; REQUESTS],
    has_ended: [bool; COMMITS],
    is_synced: [bool; COMMITS],
}

impl Disk {
    /// Begins a running operation on the volume.
    fn begin(&mut self, number: u64, op: &Operation) -> Result<(), Error> {
        self.numbers[number as usize] = match op {
            Operation::Write {
                off, len, bytes, ..
            } => self.volume.begin_write(*off, &bytes[..*len as usize])?,
            _ => self.volume.begin_sync()?,
        };
        Ok(())
    }

    /// Ends a running operation on the volume, and returns its result.
    fn carry_out(&mut self, number: u64, op: &Operation) -> i32 {
        let on_volume = self.numbers[number as usize];
        match op {
            Operation::Write { len, .. } => {
                assert!(self.volume.end_write(on_volume));
                self.has_ended[number as usize / 2] = true;
                *len as i32
            }
            _ => {
                assert!(self.volume.end_sync(on_volume));
                self.is_synced = self.has_ended;
                0
            }
        }
    }
}

struct Rng(u64);

impl Rng {
    fn new(seed: u64) -> Rng {
        let mut rng = Rng(seed.wrapping_mul(0x9e37_79b9_7f4a_7c15) | 1);
        for _ in 0..8 {
            rng.below(1);
        }
        rng
    }

    fn below(&mut self, n: u32) -> u32 {
        self.0 ^= self.0 << 13;
        self.0 ^= self.0 >> 7;
        self.0 ^= self.0 << 17;
        (self.0 >> 32) as u32 % n
    }
}

/// What all runs of a store found.
#[derive(Default)]
struct Findings {
    acknowledged: u32,
    cancelled: u32,
    crashes: u64,
    lost_generously: u32,
    /// The first run and crash in which an acknowledged record was lost.
    first_lost: Option<(u64, u64)>,
}

/// The store's side: the write of commit i is request 2i and its fsync 2i + 1, by their user data too.
fn submit(core: &mut Core, is_planted: bool) -> Result<(), Error> {
    let link = if is_planted { 0 } else { flags::IO_LINK };
    for i in 0..REQUESTS as u32 {
        let commit = i / 2;
        let record = [b'a' + commit as u8; RECORD];
        let entry = if i % 2 == 0 {
            Entry::write(
                i.into(),
                link,
                0,
                u64::from(commit) * RECORD as u64,
                &record,
            )
        } else {
            Entry::fsync(i.into(), 0, 0)
        };
        core.step(Step::Fill { slot: i, entry })?;
        core.step(Step::Index { word: i })?;
    }
    core.step(Step::StoreTail)?;
    core.step(Step::Begin {
        count: REQUESTS as u32,
    })?;
    for _ in 0..REQUESTS {
        core.step(Step::Take)?;
    }
    core.step(Step::End)?;
    Ok(())
}

/// The dispatcher's side: lets a request go on that the seed chooses. Returns whether one ended. The write of a bad commit fails, and is left running on the volume: any part of it may be found.
fn go_on(core: &mut Core, disk: &mut Disk, rng: &mut Rng, bad: u64) -> Result<bool, Error> {
    let number = rng.below(REQUESTS as u32).into();
    let Some(op) = core.running_op(number) else {
        let answer = core.step(Step::Issue { number })?;
        if let Some(op) = core.running_op(number) {
            disk.begin(number, &op)?;
        }
        return Ok(matches!(answer, Answer::Ended { .. }));
    };
    let res = if number == 2 * bad {
        -5
    } else {
        disk.carry_out(number, &op)
    };
    Ok(matches!(
        core.finish(number, res, [0; 64]),
        Answer::Ended { .. }
    ))
}

/// Reaps all completions, and returns which commits the store has acknowledged.
fn acknowledged(core: &mut Core, found: &mut Findings) -> Result<[bool; COMMITS], Error> {
    let mut is_written = [false; COMMITS];
    let mut is_acknowledged = [false; COMMITS];
    core.step(Step::LoadCqTail)?;
    while let Answer::Reaped(completion) = core.step(Step::Reap)? {
        let commit = completion.user_data as usize / 2;
        found.cancelled += u32::from(completion.res == -125);
        if completion.user_data % 2 == 0 {
            is_written[commit] = completion.res == RECORD as i32;
        } else if completion.res == 0 && is_written[commit] {
            is_acknowledged[commit] = true;
        }
    }
    core.step(Step::StoreCqHead)?;
    Ok(is_acknowledged)
}

/// Whether the record of a commit is in the log.
fn holds(log: &[u8], commit: usize) -> bool {
    let record = log.get(commit * RECORD..(commit + 1) * RECORD);
    record.is_some_and(|record| record.iter().all(|byte| *byte == b'a' + commit as u8))
}

/// The power fails: tries some images that may be left, and looks for the acknowledged records in each.
fn crash(
    disk: &Disk,
    acknowledged: &[bool; COMMITS],
    run: u64,
    found: &mut Findings,
) -> Result<(), Error> {
    let commits = || (0..COMMITS).filter(|commit| acknowledged[*commit]);
    for i in 1..=CRASHES {
        let choice = Volume::choice(run * CRASHES + i, REQUESTS as u64, CHOICE);
        let log = disk.volume.crash(&choice)?;
        if commits().any(|commit| !holds(&log, commit)) {
            found.first_lost.get_or_insert((run, i));
        }
    }
    for commit in commits() {
        found.acknowledged += 1;
        found.lost_generously += u32::from(!disk.is_synced[commit]);
    }
    found.crashes += CRASHES;
    Ok(())
}

fn play(run: u64, is_planted: bool, found: &mut Findings) -> Result<(), Error> {
    let mut rng = Rng::new(run);
    let mut disk = Disk {
        volume: Volume::new(1, b"")?,
        numbers: [0; REQUESTS],
        has_ended: [false; COMMITS],
        is_synced: [false; COMMITS],
    };
    let mut core = Core::new(&Setup {
        sq: REQUESTS as u32,
        cq: None,
        files: 1,
        start: 0,
        stops: false,
        linux: false,
    })?;
    let bad = rng.below(2 * COMMITS as u32).into();
    let most = rng.below(REQUESTS as u32 + 1);
    submit(&mut core, is_planted)?;
    let mut ended = 0;
    while ended < most {
        ended += u32::from(go_on(&mut core, &mut disk, &mut rng, bad)?);
    }
    let acknowledged = acknowledged(&mut core, found)?;
    crash(&disk, &acknowledged, run, found)
}

fn play_all(name: &str, is_planted: bool) -> Result<Findings, Error> {
    let mut found = Findings::default();
    for run in 1..=RUNS {
        play(run, is_planted, &mut found)?;
    }
    println!(
        "{name}: {RUNS} runs, {} commits acknowledged, {} fsyncs cancelled, {} crashes tried",
        found.acknowledged, found.cancelled, found.crashes
    );
    println!(
        "  the generous rule would lose {} of them",
        found.lost_generously
    );
    match found.first_lost {
        None => println!("  none was lost in any crash"),
        Some((run, crash)) => println!("  lost, the first time in crash {crash} of run {run}"),
    }
    Ok(found)
}

fn main() -> Result<ExitCode, Error> {
    let right = play_all("the right store", false)?;
    let planted = play_all("the planted store", true)?;
    Ok(
        if right.first_lost.is_none() && planted.first_lost.is_some() {
            ExitCode::SUCCESS
        } else {
            ExitCode::FAILURE
        },
    )
}
