//! The measures of the proved program, made in the same way.

use crate::entry::{opcode, Sqe};
use crate::kinds::{round, PATH};
use crate::machine::{run, Answer, Machine, Step};
use crate::setup::Setup;
use std::io::{self, Write};
use std::ops::Range;
use std::time::{Duration, Instant};

const SIZES: [u32; 6] = [1, 8, 32, 64, 128, 4096];
const ACCEPTED: [u32; 5] = [1024, 4096, 16_384, 65_536, 1_000_000];
const OUTSTANDING: [u32; 3] = [16, 256, 4096];
const WAITING: [u32; 2] = [16, 4096];

/// The flags of a request by its number and how many there are, and whether it is started: one chain whose first member runs, chains of 8 whose first members run, and a request that runs, one that drains, and others after it.
type Shape = (&'static str, fn(u32, u32) -> u8, fn(u32) -> bool);

const SHAPES: [Shape; 3] = [
    (
        "chain",
        |n, count| if n + 1 < count { 4 } else { 0 },
        |n| n == 0,
    ),
    (
        "chains",
        |n, _| if n % 8 < 7 { 4 } else { 0 },
        |n| n % 8 == 0,
    ),
    ("drain", |n, _| if n == 1 { 2 } else { 0 }, |n| n == 0),
];

/// How many cancels are issued in a row.
const CANCELS: u32 = 8;

/// How often the next request is asked for.
const ASKS: usize = 1024;

/// How many requests a machine accepts while the full path is measured.
const PATH_REQUESTS: u32 = 4096;

/// How many requests are accepted at once where many are to be accepted.
const GROWTH: u32 = 64;

/// How many requests take the path while kinds of steps are measured apart.
const MEASURED: u32 = 256;

/// How many steps are run at once, so that steps and answers stay in the processor's caches.
const BATCH: usize = 1024;

/// How many steps were timed, how long they took, and a digest of their answers.
#[derive(Clone, Copy, Default)]
struct Measure {
    steps: u64,
    time: Duration,
    digest: u64,
}

impl Measure {
    fn time(&mut self, machine: &mut Machine, steps: &[Step]) {
        for batch in steps.chunks(BATCH) {
            let start = Instant::now();
            let answers = run(machine, batch);
            self.time += start.elapsed();
            self.steps += answers.len() as u64;
            for answer in &answers {
                self.digest = self.digest.wrapping_mul(1_099_511_628_211) ^ value(answer);
            }
        }
    }

    fn print(&self, writer: &mut impl Write, name: &str, point: u32, part: &str) -> io::Result<()> {
        let Measure {
            steps,
            time,
            digest,
        } = self;
        writeln!(
            writer,
            "{name}_{point}_{part} {steps} {} {digest}",
            time.as_nanos()
        )
    }
}

/// A number for an answer: one for its kind, and what it carries.
fn value(answer: &Answer) -> u64 {
    let (kind, carried) = match *answer {
        Answer::Filled => (1, 0),
        Answer::Staged => (2, 0),
        Answer::Tail(word) => (3, word.into()),
        Answer::Head(word) => (4, word.into()),
        Answer::Call(count) => (5, count.into()),
        Answer::Entry(entry) => (6, entry.user_data),
        Answer::Taken { accepted, .. } => (7, accepted.into()),
        Answer::Run => (8, 0),
        Answer::Ended { res, bytes } => (9, u64::from(res as u32) ^ u64::from(bytes[0])),
        Answer::Moved(count) => (10, count),
        Answer::Reaped(completion) => (11, completion.user_data),
        Answer::Next(number) => (12, number),
        Answer::Nothing => (13, 0),
        _ => (0, 0),
    };
    carried.wrapping_mul(16).wrapping_add(kind)
}

pub fn measure(writer: &mut impl Write) -> io::Result<()> {
    for size in SIZES {
        path(writer, size)?;
    }
    accepted(writer)?;
    OUTSTANDING
        .iter()
        .try_for_each(|count| outstanding(writer, *count))?;
    for shape in &SHAPES {
        for count in WAITING {
            waiting(writer, shape, count)?;
        }
    }
    WAITING.iter().try_for_each(|count| cancels(writer, *count))
}

/// The question for the next request where so many are outstanding in this shape.
fn waiting(writer: &mut impl Write, shape: &Shape, count: u32) -> io::Result<()> {
    let (name, flags, runs) = *shape;
    let mut machine = machine(PATH_REQUESTS);
    let mut steps: Vec<Step> = (0..count)
        .map(|slot| Step::Fill {
            slot,
            entry: Sqe::new(opcode::NOP, slot.into(), flags(slot, count)),
        })
        .collect();
    steps.extend(PATH[1..7].iter().flat_map(|(kind, _)| kind.steps(0, count)));
    steps.extend(
        (0..count)
            .filter(|n| runs(*n))
            .map(|n| Step::Issue { number: n.into() }),
    );
    run(&mut machine, &steps);
    time_next(writer, &mut machine, name, count)
}

/// The issue of cancels of the last of so many that run, which goes on.
fn cancels(writer: &mut impl Write, count: u32) -> io::Result<()> {
    let mut machine = machine(PATH_REQUESTS);
    let steps = |first: u64, kinds: Range<usize>, size: u32| -> Vec<Step> {
        let kinds = PATH[kinds].iter();
        kinds
            .flat_map(|(kind, _)| kind.steps(first, size))
            .collect()
    };
    run(&mut machine, &steps(0, 0..8, count));
    let mut measure = Measure::default();
    for k in 0..=MEASURED / CANCELS {
        if k == 1 {
            measure = Measure::default();
        }
        let first = machine.accepted();
        let fills = (0..CANCELS).map(|slot| Step::Fill {
            slot,
            entry: Sqe {
                addr: u64::from(count) - 1,
                ..Sqe::new(opcode::ASYNC_CANCEL, u64::MAX, 0)
            },
        });
        run(&mut machine, &fills.collect::<Vec<Step>>());
        run(&mut machine, &steps(first, 1..7, CANCELS));
        measure.time(&mut machine, &steps(first, 7..8, CANCELS));
        run(&mut machine, &steps(first, 9..13, CANCELS));
    }
    measure.print(writer, "cancel", count, "issue")
}

/// So many rounds of one no-op, on a new machine.
pub fn rounds_of_one(count: u32) {
    let mut machine = machine(1);
    for _ in 0..count {
        make_round(&mut machine, 1);
    }
}

fn machine(size: u32) -> Machine {
    Machine::new(&Setup::new(size, None, 1, 0).expect("a size in its range"))
}

/// The full path of no-ops at a submission ring of this size, which is full in each round, on a new machine.
fn path(writer: &mut impl Write, size: u32) -> io::Result<()> {
    let mut machine = machine(size);
    let firsts = (0..u64::from(PATH_REQUESTS)).step_by(size as usize);
    let steps: Vec<Step> = firsts.flat_map(|first| round(first, size)).collect();
    let mut measure = Measure::default();
    measure.time(&mut machine, &steps);
    measure.print(writer, "path", size, "all")
}

/// Each kind of step where so many requests were accepted and have ended.
fn accepted(writer: &mut impl Write) -> io::Result<()> {
    let mut machine = machine(GROWTH);
    for point in ACCEPTED {
        while machine.accepted() < u64::from(point) {
            make_round(&mut machine, GROWTH);
        }
        measure_kinds(writer, &mut machine, "accepted", point, GROWTH)?;
    }
    Ok(())
}

/// A round of `size` requests that isn't timed.
fn make_round(machine: &mut Machine, size: u32) {
    let steps: Vec<Step> = round(machine.accepted(), size).collect();
    run(machine, &steps);
}

/// Each kind of step where so many requests run.
fn outstanding(writer: &mut impl Write, count: u32) -> io::Result<()> {
    let mut machine = machine(PATH_REQUESTS);
    let submission = PATH[..8].iter();
    let steps: Vec<Step> = submission
        .flat_map(|(kind, _)| kind.steps(0, count))
        .collect();
    run(&mut machine, &steps);
    measure_kinds(writer, &mut machine, "outstanding", count, 8)
}

/// Times each kind of step apart, in rounds of `size` requests, and the question for the next request. A round before that has the lists grow that are full.
fn measure_kinds(
    writer: &mut impl Write,
    machine: &mut Machine,
    name: &str,
    point: u32,
    size: u32,
) -> io::Result<()> {
    make_round(machine, size);
    let mut measures = [Measure::default(); PATH.len()];
    for _ in 0..MEASURED / size {
        let first = machine.accepted();
        for ((kind, _), measure) in PATH.iter().zip(&mut measures) {
            let steps: Vec<Step> = kind.steps(first, size).collect();
            measure.time(machine, &steps);
        }
    }
    for ((_, part), measure) in PATH.iter().zip(&measures) {
        measure.print(writer, name, point, part)?;
    }
    time_next(writer, machine, name, point)
}

/// Times the question for the next request. It is asked before too, so that the memory for the answers was touched.
fn time_next(
    writer: &mut impl Write,
    machine: &mut Machine,
    name: &str,
    point: u32,
) -> io::Result<()> {
    let steps = [Step::Next; ASKS];
    run(machine, &steps);
    let mut next = Measure::default();
    next.time(machine, &steps);
    next.print(writer, name, point, "next")
}
