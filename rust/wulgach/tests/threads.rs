//! What is made on one thread is used and let go on another.

use std::io;
use std::thread;
use wulgach::{
    Answer, Completion, Core, CrashMachine, Entry, Error, Machine, Outcomes, Setup, Step, Volume,
};

#[test]
fn each_is_sent() -> Result<(), Error> {
    let setup = Setup::default();
    let (mut core, mut machine) = (Core::new(&setup)?, Machine::new(&setup)?);
    let mut crash_machine = CrashMachine::new(&setup, 1)?;
    let volume = Volume::new(1, b"ab")?;
    let outcomes = Outcomes::new(&setup, &[[Entry::nop(7, 0)]], 10)?;
    core.submit(&[Entry::nop(7, 0)])?;
    let seen = thread::spawn(move || {
        let issued = core.step(Step::Issue { number: 0 });
        let answers = [
            machine.step(Step::LoadHead),
            crash_machine.step(Step::LoadHead),
        ];
        (issued, answers, volume.contents(), outcomes.len())
    });
    let (issued, answers, contents, count) = seen.join().expect("the thread ends");
    assert_eq!(issued, Ok(Answer::Run));
    assert_eq!(answers, [Ok(Answer::Head(0)); 2]);
    assert_eq!(contents?, b"ab");
    assert_eq!(count, 1);
    Ok(())
}

/// Bytes as the kernel's header has them: byte 0 is the operation, 1 the flags, 4 to 7 the descriptor, 32 to 39 the user data.
#[test]
fn entries_and_completions_are_those_of_other_crates() {
    let mut bytes = [0; 64];
    (bytes[0], bytes[1], bytes[4], bytes[32]) = (3, 2, 5, 9);
    let entry = Entry::from(bytes);
    assert_eq!(entry, Entry::fsync(9, 2, 5));
    assert_eq!(<[u8; 128]>::from(entry)[..64], bytes);
    assert_eq!(Entry::from(<[u64; 16]>::from(entry)), entry);

    let bytes = [0; 64];
    let completion = |res| Completion {
        user_data: 9,
        res,
        bytes,
    };
    assert_eq!(<(u64, i32)>::from(completion(4)), (9, 4));
    assert_eq!(completion(4).result().ok(), Some(4));
    let error = completion(-9).result().expect_err("a failure");
    assert_eq!(error.raw_os_error(), Some(9));
    assert_eq!(
        io::Error::from(Error::NoMemory).kind(),
        io::ErrorKind::OutOfMemory
    );
}
