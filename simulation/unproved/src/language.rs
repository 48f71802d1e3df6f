//! Steps as lines of text, and their answers.

use crate::completion::Cqe;
use crate::entry::{flags, opcode, Sqe, CANCEL_ALL};
use crate::machine::{Answer, Step};
use std::fmt;
use std::str::FromStr;

const LONGEST_LINE: usize = 300;

/// The step that a line is.
pub fn read_step(line: &[u8]) -> Option<Step> {
    if line.len() > LONGEST_LINE {
        return None;
    }
    let words: Vec<&str> = std::str::from_utf8(line).ok()?.split(' ').collect();
    Some(match words.as_slice() {
        ["fill", slot, entry @ ..] => Step::Fill {
            slot: number(slot)?,
            entry: read_entry(entry)?,
        },
        ["index", word] => Step::Index {
            word: number(word)?,
        },
        ["tail"] => Step::StoreTail,
        ["head"] => Step::LoadHead,
        ["begin", count] => Step::Begin {
            count: number(count)?,
        },
        ["take"] => Step::Take,
        ["end"] => Step::End,
        ["issue", n] => Step::Issue { number: number(n)? },
        ["finish", n] => Step::Finish { number: number(n)? },
        ["flush"] => Step::Flush,
        ["cqtail"] => Step::LoadCqTail,
        ["reap"] => Step::Reap,
        ["cqhead"] => Step::StoreCqHead,
        ["close"] => Step::Close,
        ["next"] => Step::Next,
        _ => return None,
    })
}

fn read_entry(words: &[&str]) -> Option<Sqe> {
    let entry =
        |code, user_data, flags| Some(Sqe::new(code, number(user_data)?, flag_bits(flags)?));
    match words {
        ["nop", user_data, flags] => entry(opcode::NOP, user_data, flags),
        ["fsync", user_data, flags, fd] => Some(Sqe {
            fd: file(fd)?,
            ..entry(opcode::FSYNC, user_data, flags)?
        }),
        ["read", user_data, flags, fd, off, len] => Some(Sqe {
            fd: file(fd)?,
            off: number(off)?,
            len: number(len)?,
            ..entry(opcode::READ, user_data, flags)?
        }),
        ["write", user_data, flags, fd, off, data] => {
            let mut payload = [0; 64];
            let len = if *data == "-" { 0 } else { data.len() / 2 };
            if *data != "-" {
                decode(
                    data,
                    payload.get_mut(..len).filter(|bytes| !bytes.is_empty())?,
                )?;
            }
            Some(Sqe {
                fd: file(fd)?,
                off: number(off)?,
                len: len as u32,
                payload,
                ..entry(opcode::WRITE, user_data, flags)?
            })
        }
        ["cancel", user_data, flags, target] => Some(Sqe {
            addr: number(target)?,
            ..entry(opcode::ASYNC_CANCEL, user_data, flags)?
        }),
        ["cancelall", user_data, flags, target] => Some(Sqe {
            addr: number(target)?,
            op_flags: CANCEL_ALL,
            ..entry(opcode::ASYNC_CANCEL, user_data, flags)?
        }),
        ["op", code, user_data, flags] => entry(number(code)?, user_data, flags),
        ["raw", digits] => {
            let mut bytes = [0; 128];
            decode(digits, &mut bytes)?;
            Some(Sqe::from_bytes(&bytes))
        }
        _ => None,
    }
}

/// A number in decimal without leading zeros.
fn number<T: FromStr>(word: &str) -> Option<T> {
    let is_spelled_once = word == "0" || !word.starts_with('0');
    let is_decimal = word.bytes().all(|digit| digit.is_ascii_digit());
    (is_spelled_once && is_decimal).then(|| word.parse().ok())?
}

fn file(word: &str) -> Option<i32> {
    match word.strip_prefix('-') {
        None => number(word),
        Some(digits) => match number::<u32>(digits)? {
            0 => None,
            _ => word.parse().ok(),
        },
    }
}

fn flag_bits(word: &str) -> Option<u8> {
    match word {
        "-" => return Some(0),
        "" => return None,
        _ => {}
    }
    word.bytes().try_fold(0, |bits, letter| {
        let bit = match letter {
            b'D' => flags::IO_DRAIN,
            b'L' => flags::IO_LINK,
            b'H' => flags::IO_HARDLINK,
            b'A' => flags::ASYNC,
            b'S' => flags::CQE_SKIP_SUCCESS,
            _ => return None,
        };
        (bits & bit == 0).then_some(bits | bit)
    })
}

/// Fills `bytes` with what the lower case digits of a word spell.
fn decode(word: &str, bytes: &mut [u8]) -> Option<()> {
    fn digit(letter: u8) -> Option<u8> {
        match letter {
            b'0'..=b'9' => Some(letter - b'0'),
            b'a'..=b'f' => Some(letter - b'a' + 10),
            _ => None,
        }
    }
    if word.len() != 2 * bytes.len() {
        return None;
    }
    for (byte, pair) in bytes.iter_mut().zip(word.as_bytes().chunks_exact(2)) {
        *byte = 16 * digit(pair[0])? + digit(pair[1])?;
    }
    Some(())
}

impl fmt::Display for Answer {
    fn fmt(&self, f: &mut fmt::Formatter) -> fmt::Result {
        match self {
            Answer::Filled | Answer::Staged | Answer::Shut => f.write_str("ok"),
            Answer::NoSlot => f.write_str("no slot"),
            Answer::Busy => f.write_str("busy"),
            Answer::Full => f.write_str("full"),
            Answer::Tail(word) => write!(f, "tail {word}"),
            Answer::Head(word) => write!(f, "head {word}"),
            Answer::Call(count) => write!(f, "call {count}"),
            Answer::Closed => f.write_str("closed"),
            Answer::InCall => f.write_str("in call"),
            Answer::Spent => f.write_str("spent"),
            Answer::Entry(entry) => write!(f, "entry {}", entry.user_data),
            Answer::Dropped => f.write_str("dropped"),
            Answer::NoMore => f.write_str("no more"),
            Answer::NoCall => f.write_str("no call"),
            Answer::Taken {
                accepted,
                dropped,
                head,
            } => {
                write!(f, "taken {accepted} dropped {dropped} head {head}")
            }
            Answer::NotAll => f.write_str("not all"),
            Answer::Run => f.write_str("run"),
            Answer::Ended { res, .. } => write!(f, "ended {res}"),
            Answer::NotReady => f.write_str("not ready"),
            Answer::Running => f.write_str("running"),
            Answer::Unknown => f.write_str("unknown"),
            Answer::NotRunning => f.write_str("not running"),
            Answer::Moved(count) => write!(f, "moved {count}"),
            Answer::Reaped(completion) => completion.fmt(f),
            Answer::Nothing => f.write_str("none"),
            Answer::Next(number) => write!(f, "next {number}"),
        }
    }
}

impl fmt::Display for Cqe {
    fn fmt(&self, f: &mut fmt::Formatter) -> fmt::Result {
        write!(f, "cqe {} {} ", self.user_data, self.res)?;
        let used = self
            .payload
            .iter()
            .rposition(|byte| *byte != 0)
            .map_or(0, |last| last + 1);
        if used == 0 {
            return f.write_str("-");
        }
        self.payload[..used]
            .iter()
            .try_for_each(|byte| write!(f, "{byte:02x}"))
    }
}
