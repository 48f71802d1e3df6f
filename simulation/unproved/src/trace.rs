//! The run of a trace over a reader and a writer.

use crate::language::read_step;
use crate::machine::Machine;
use crate::setup::Setup;
use std::io::{self, BufRead, Write};

/// Answers each line of `reader`. What is read at once is answered before more is read.
pub fn trace(mut reader: impl BufRead, mut writer: impl Write, setup: &Setup) -> io::Result<()> {
    let mut machine = Machine::new(setup);
    let mut line = Vec::new();
    loop {
        let bytes = reader.fill_buf()?;
        let count = bytes.len();
        if count == 0 {
            break;
        }
        for part in bytes.split_inclusive(|byte| *byte == b'\n') {
            line.extend_from_slice(part);
            if line.last() == Some(&b'\n') {
                line.pop();
                answer(&mut machine, &line, &mut writer)?;
                line.clear();
            }
        }
        reader.consume(count);
        writer.flush()?;
    }
    if !line.is_empty() {
        answer(&mut machine, &line, &mut writer)?;
    }
    writer.flush()
}

fn answer(machine: &mut Machine, line: &[u8], writer: &mut impl Write) -> io::Result<()> {
    match read_step(line) {
        Some(step) => writeln!(writer, "{}", machine.step(&step)),
        None => writeln!(writer, "bad line"),
    }
}
