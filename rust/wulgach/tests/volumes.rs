//! Files that are longer than the room that a read begins with, and a crash by a seed of more than one file.

use wulgach::{Answer, CrashMachine, Entry, Error, Setup, Step, Volume};

#[test]
fn reads_give_files_of_any_length() -> Result<(), Error> {
    for len in [0, 255, 256, 257, 1000] {
        let first: Vec<u8> = (0..len).map(|at| at as u8).collect();
        let volume = Volume::new(1, &first)?;
        assert_eq!(volume.contents()?, first);
        assert_eq!(volume.crash(&[])?, first);
        assert_eq!(volume.images(1)?, Some(vec![first.clone()]));
        let machine = CrashMachine::on(&Setup::default(), 1, &[&first])?;
        assert_eq!(machine.image(0, &[])?, first);
        assert_eq!(machine.images(0, 1)?, Some(vec![first]));
    }
    Ok(())
}

#[test]
fn a_seed_chooses_for_each_file() -> Result<(), Error> {
    let mut machine = CrashMachine::new(&Setup::default(), 1)?;
    for fd in [0, 1] {
        let entry = Entry::write(1, 0, fd, 0, b"unsynced");
        machine.step(Step::Fill { slot: 0, entry })?;
        machine.step(Step::Index { word: 0 })?;
        machine.step(Step::StoreTail)?;
        machine.step(Step::Begin { count: 1 })?;
        while machine.step(Step::Take)? != Answer::NoMore {}
        machine.step(Step::End)?;
        machine.step(Step::LoadHead)?;
        machine.step(Step::Issue { number: fd as u64 })?;
    }
    let mut is_left = [false; 2];
    for seed in 0..100 {
        let next = machine.crash_by(seed, 1, 64)?;
        for fd in [0, 1] {
            is_left[fd] |= next.contents(fd as i32).expect("a file") != b"";
        }
    }
    assert_eq!(is_left, [true; 2]);
    Ok(())
}
