//! Why requests stand as they do: each case, each doom and each reason to wait that the manual pages' rules have, and each fault, of a core and of a machine. And which completion ring a set-up has.

use wulgach::{flags, Answer, Core, Doom, Entry, Error, Fault, Machine, Setup, Since, Step, Why};

const SETUP: Setup = Setup {
    sq: 16,
    cq: None,
    files: 1,
    start: 0,
    stops: false,
    linux: false,
};

/// A core and a machine that make the same steps.
struct Both {
    core: Core,
    machine: Machine,
}

impl Both {
    /// Both, with one call of these entries accepted.
    fn with(entries: &[Entry]) -> Both {
        let mut both = Both {
            core: Core::new(&SETUP).unwrap(),
            machine: Machine::new(&SETUP).unwrap(),
        };
        for (slot, entry) in (0..).zip(entries) {
            let entry = *entry;
            assert_eq!(both.step(Step::Fill { slot, entry }), Answer::Filled);
            assert_eq!(both.step(Step::Index { word: slot }), Answer::Staged);
        }
        both.step(Step::StoreTail);
        let count = entries.len() as u32;
        assert_eq!(both.step(Step::Begin { count }), Answer::Call(count));
        for entry in entries {
            assert_eq!(both.step(Step::Take), Answer::Entry(*entry));
        }
        both.step(Step::End);
        both
    }

    fn step(&mut self, step: Step) -> Answer {
        let answer = self.machine.step(step).unwrap();
        assert_eq!(self.core.step(step), Ok(answer));
        answer
    }

    fn why(&self, number: u64) -> Why {
        let why = self.machine.why(number);
        assert_eq!(self.core.why(number), why);
        why
    }
}

/// A no-op with this word as one of its words.
fn nop_with(place: usize, word: u64) -> Entry {
    let mut words = Entry::nop(0, 0).words();
    words[place] |= word;
    Entry::from_words(words)
}

#[test]
fn each_fault_has_its_name() {
    let cases = [
        (Entry::nop(0, 1), Fault::Flags),
        (Entry::with_opcode(99, 0, 0), Fault::Opcode),
        (nop_with(0, 1 << 16), Fault::Ioprio),
        (nop_with(3, 1 << 32), Fault::OpFlags),
        (nop_with(7, 1), Fault::Reserved),
        (Entry::read(0, 0, 0, 0, 65), Fault::Len),
        (Entry::read(0, 0, 0, u64::MAX, 8), Fault::Off),
    ];
    let both = Both::with(&cases.map(|(entry, _)| entry));
    for (number, (_, fault)) in (0..).zip(cases) {
        assert_eq!(both.why(number), Why::IsDoomed(Doom::OwnFault(fault)));
    }
}

/// Requests 0 and 1 are a chain, of which 1 has a fault; 2, 3 and 4 are one; 5 stands alone.
#[test]
fn each_doom_has_its_name() {
    let mut both = Both::with(&[
        Entry::nop(0, flags::IO_LINK),
        Entry::with_opcode(99, 1, 0),
        Entry::read(2, flags::IO_LINK, 0, 0, 8),
        Entry::nop(3, flags::IO_HARDLINK),
        Entry::nop(4, 0),
        Entry::cancel(5, 0, 3),
    ]);
    assert_eq!(both.why(0), Why::IsDoomed(Doom::FaultOf(1)));
    assert_eq!(both.why(2), Why::MayStart);
    let since = Since::SameGroup;
    assert_eq!(both.why(3), Why::Waits { least: 2, since });
    assert_eq!(both.step(Step::Issue { number: 2 }), Answer::Run);
    assert_eq!(both.why(2), Why::Runs);
    let bytes = [0; 64];
    let ended = Answer::Ended { res: 0, bytes };
    assert_eq!(both.step(Step::Issue { number: 5 }), ended);
    assert_eq!(both.why(3), Why::IsDoomed(Doom::Cancel));
    assert_eq!(both.why(5), Why::HasEnded);
    assert_eq!(both.why(6), Why::NeverAccepted);

    // The read of an empty file moves none of its bytes, which breaks its soft link.
    assert_eq!(both.core.finish(2, 0, bytes), ended);
    assert_eq!(
        both.machine.step(Step::Finish { number: 2 }).unwrap(),
        ended
    );
    assert_eq!(both.why(4), Why::IsDoomed(Doom::FailureOf(2)));
}

/// Request 1 drains: it waits for 0, and 2 waits for it.
#[test]
fn each_reason_to_wait_has_its_name() {
    let both = Both::with(&[
        Entry::nop(0, 0),
        Entry::nop(1, flags::IO_DRAIN),
        Entry::nop(2, 0),
    ]);
    let since = Since::OwnDrains;
    assert_eq!(both.why(1), Why::Waits { least: 0, since });
    let since = Since::ItDrains;
    assert_eq!(both.why(2), Why::Waits { least: 1, since });
}

/// How many of nine completions the application sees in the ring, if none is reaped.
fn shown(setup: &Setup) -> usize {
    let mut machine = Machine::new(setup).unwrap();
    for number in 0..9 {
        let entry = Entry::nop(number, 0);
        assert_eq!(
            machine.step(Step::Fill { slot: 0, entry }).unwrap(),
            Answer::Filled
        );
        for step in [
            Step::Index { word: 0 },
            Step::StoreTail,
            Step::Begin { count: 1 },
        ] {
            machine.step(step).unwrap();
        }
        for step in [
            Step::Take,
            Step::End,
            Step::LoadHead,
            Step::Issue { number },
        ] {
            machine.step(step).unwrap();
        }
        assert!(matches!(
            machine.step(Step::Finish { number }).unwrap(),
            Answer::Ended { res: 0, .. }
        ));
    }
    machine.step(Step::LoadCqTail).unwrap();
    (0..9)
        .take_while(|_| machine.step(Step::Reap).unwrap() != Answer::Nothing)
        .count()
}

/// The completion ring is the one asked for, or else twice the submission ring, whether calls stop or not.
#[test]
fn ring_is_the_one_asked_for() {
    for stops in [false, true] {
        for (cq, size) in [
            (None, 2),
            (Some(1), 1),
            (Some(2), 2),
            (Some(4), 4),
            (Some(8), 8),
        ] {
            let setup = Setup {
                sq: 1,
                cq,
                stops,
                ..SETUP
            };
            assert_eq!(shown(&setup), size, "{setup:?}");
        }
        for cq in [Some(0), Some(8193)] {
            let setup = Setup { cq, stops, ..SETUP };
            assert_eq!(Machine::new(&setup).err(), Some(Error::BadSetup));
        }
    }
}

/// A call of a ring that stops ends after an entry with a fault, whether the completion ring is asked for or not.
#[test]
fn calls_stop_if_that_is_asked_for() {
    for stops in [false, true] {
        for cq in [None, Some(32)] {
            let mut core = Core::new(&Setup { cq, stops, ..SETUP }).unwrap();
            let entry = Entry::with_opcode(99, 0, 0);
            let fill = Step::Fill { slot: 0, entry };
            let index = Step::Index { word: 0 };
            for step in [
                fill,
                index,
                index,
                Step::StoreTail,
                Step::Begin { count: 2 },
                Step::Take,
            ] {
                core.step(step).unwrap();
            }
            let after = if stops {
                Answer::NoMore
            } else {
                Answer::Entry(entry)
            };
            assert_eq!(core.step(Step::Take), Ok(after));
        }
    }
}
