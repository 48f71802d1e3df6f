//! Everything that three calls may come to: which orders of a write of data, of a commit record and an fsync may be seen.
//!
//! The fsync drains, so it covers both writes in each order. Loose, the commit record may be there before its data: that is the bug, if a crash comes between. With a link on the first write it never is. `c/examples/outcomes.c` asks the same.

use wulgach::{flags, Entry, Error, Outcomes, Setup};

/// The outcomes of one call with the data at 0, the commit record at 1 and an fsync that drains: their completions by user data and result, in the order in which they come, and the file that they leave.
fn ask(name: &str, link: u8) -> Result<(), Error> {
    let call = [
        Entry::write(1, link, 0, 0, b"a"),
        Entry::write(2, 0, 0, 1, b"\xff"),
        Entry::fsync(3, flags::IO_DRAIN, 0),
    ];
    let outcomes = Outcomes::new(&Setup::default(), &[call], u64::MAX)?;
    let bound = if outcomes.is_all() { "" } else { "at least " };
    println!("{name}: {bound}{}", outcomes.len());
    for outcome in &outcomes {
        for completion in &outcome.completions {
            print!("{} {}, ", completion.user_data, completion.res);
        }
        let file = &outcome.files[0];
        for byte in &file.bytes {
            print!("{byte:02x}");
        }
        println!(", synced {} of {}", file.state.synced, file.state.writes);
    }
    Ok(())
}

fn main() -> Result<(), Error> {
    ask("loose", 0)?;
    ask("linked", flags::IO_LINK)
}
