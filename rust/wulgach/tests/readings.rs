//! What is read off a machine, where no two of its numbers are the same: counts, operations that run, how a file stands, and completions.

use wulgach::{Answer, Counts, Entry, Error, FileState, Machine, Operation, Setup, Step};

/// A machine whose submission ring has eight entries, with one call of these accepted.
fn machine_with(entries: &[Entry]) -> Result<Machine, Error> {
    let setup = Setup {
        sq: 8,
        ..Setup::default()
    };
    let mut machine = Machine::new(&setup)?;
    for (slot, entry) in (0..).zip(entries) {
        let entry = *entry;
        machine.step(Step::Fill { slot, entry })?;
        machine.step(Step::Index { word: slot })?;
    }
    machine.step(Step::StoreTail)?;
    let count = entries.len() as u32;
    machine.step(Step::Begin { count })?;
    while machine.step(Step::Take)? != Answer::NoMore {}
    machine.step(Step::End)?;
    Ok(machine)
}

#[test]
fn each_number_is_in_its_place() -> Result<(), Error> {
    let mut machine = machine_with(&[
        Entry::write(10, 0, 1, 5, b"abc"),
        Entry::nop(11, 0),
        Entry::fsync(12, 0, 1),
        Entry::read(13, 0, 1, 6, 9),
        Entry::nop(14, 0),
        Entry::nop(15, 0),
    ])?;
    for number in 0..5 {
        assert_eq!(machine.step(Step::Issue { number })?, Answer::Run);
    }
    let mut bytes = [0; 64];
    bytes[..3].copy_from_slice(b"abc");
    let (fd, off, len) = (1, 5, 3);
    let write = Operation::Write {
        fd,
        off,
        len,
        bytes,
    };
    let read = Operation::Read { fd, off: 6, len: 9 };
    let fsync = Operation::Fsync { fd };
    let running = [write, Operation::Nop, fsync, read, Operation::Nop];
    for (number, operation) in (0..).zip(running) {
        assert_eq!(machine.running_op(number), Some(operation));
    }
    assert_eq!(machine.running_op(5), None);

    machine.step(Step::Finish { number: 0 })?;
    machine.step(Step::Finish { number: 1 })?;
    machine.step(Step::LoadCqTail)?;
    machine.step(Step::Reap)?;
    let counts = Counts {
        accepted: 6,
        outstanding: 4,
        running: 3,
        posted: 2,
        reaped: 1,
    };
    assert_eq!(machine.counts(), counts);
    let rest = machine.rest(0).expect("one completion waits");
    assert_eq!((rest.user_data, rest.res), (11, 0));

    let mut state = FileState {
        len: 8,
        writes: 1,
        synced: 0,
    };
    assert_eq!(machine.state(1), Some(state));
    machine.step(Step::Finish { number: 2 })?;
    state.synced = 1;
    assert_eq!(machine.state(1), Some(state));
    Ok(())
}
