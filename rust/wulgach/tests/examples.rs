//! Plays the traces of the repository's `examples/` on a machine, and compares the answers, as they are displayed, with those that stand beside them. Each step is displayed as a line that is the same step.

use std::fs;
use std::path::Path;
use wulgach::{flags, Entry, Machine, Setup, Step};

fn flag_bits(letters: &str) -> u8 {
    letters
        .bytes()
        .map(|letter| match letter {
            b'-' => 0,
            b'D' => flags::IO_DRAIN,
            b'L' => flags::IO_LINK,
            b'H' => flags::IO_HARDLINK,
            b'A' => flags::ASYNC,
            b'S' => flags::CQE_SKIP_SUCCESS,
            _ => panic!("a flag {letter}"),
        })
        .sum()
}

fn bytes_of(hex: &str) -> Vec<u8> {
    let digits = if hex == "-" { "" } else { hex };
    (0..digits.len() / 2)
        .map(|i| u8::from_str_radix(&digits[2 * i..2 * i + 2], 16).unwrap())
        .collect()
}

fn entry_of(words: &[&str]) -> Option<Entry> {
    let number = |i: usize| words[i].parse::<u64>().unwrap();
    let (user_data, flags) = (|| number(1), || flag_bits(words[2]));
    Some(match words {
        ["nop", ..] => Entry::nop(user_data(), flags()),
        ["fsync", _, _, fd] => Entry::fsync(user_data(), flags(), fd.parse().unwrap()),
        ["read", _, _, fd, _, _] => Entry::read(
            user_data(),
            flags(),
            fd.parse().unwrap(),
            number(4),
            number(5) as u32,
        ),
        ["write", _, _, fd, _, hex] => Entry::write(
            user_data(),
            flags(),
            fd.parse().unwrap(),
            number(4),
            &bytes_of(hex),
        ),
        ["cancel", ..] => Entry::cancel(user_data(), flags(), number(3)),
        ["cancelall", ..] => Entry::cancel_all(user_data(), flags(), number(3)),
        ["op", code, user_data, letters] => Entry::with_opcode(
            code.parse().unwrap(),
            user_data.parse().unwrap(),
            flag_bits(letters),
        ),
        ["raw", hex] => {
            let mut words = [0; 16];
            for (word, bytes) in words.iter_mut().zip(bytes_of(hex).chunks_exact(8)) {
                *word = u64::from_le_bytes(bytes.try_into().unwrap());
            }
            Entry::from_words(words)
        }
        _ => return None,
    })
}

fn step_of(line: &str) -> Option<Step> {
    let words: Vec<&str> = line.split(' ').collect();
    let number = || words[1].parse::<u64>().unwrap();
    Some(match words[0] {
        "fill" => Step::Fill {
            slot: number() as u32,
            entry: entry_of(&words[2..])?,
        },
        "index" => Step::Index {
            word: number() as u32,
        },
        "tail" => Step::StoreTail,
        "head" => Step::LoadHead,
        "begin" => Step::Begin {
            count: number() as u32,
        },
        "take" => Step::Take,
        "end" => Step::End,
        "issue" => Step::Issue { number: number() },
        "finish" => Step::Finish { number: number() },
        "flush" => Step::Flush,
        "cqtail" => Step::LoadCqTail,
        "reap" => Step::Reap,
        "cqhead" => Step::StoreCqHead,
        "close" => Step::Close,
        "next" => Step::Next,
        _ => return None,
    })
}

fn setup_of(options: &str) -> Setup {
    let mut setup = Setup::default();
    let words: Vec<&str> = options.split_whitespace().collect();
    let mut words = words.into_iter();
    while let Some(option) = words.next() {
        if option == "--stop" {
            setup.stops = true;
            continue;
        }
        let number = words.next().unwrap().parse().unwrap();
        match option {
            "--sq" => setup.sq = number,
            "--cq" => setup.cq = Some(number),
            "--files" => setup.files = number,
            "--start" => setup.start = number,
            option => panic!("an option {option}"),
        }
    }
    setup
}

#[test]
fn examples_are_answered() {
    let folder = Path::new(env!("CARGO_MANIFEST_DIR")).join("../../examples");
    let asked = fs::read_to_string(folder.join("options")).unwrap();
    let mut count = 0;
    for file in fs::read_dir(folder).unwrap() {
        let path = file.unwrap().path();
        if path
            .extension()
            .map_or(true, |extension| extension != "trace")
        {
            continue;
        }
        let name = format!("{}: ", path.file_stem().unwrap().to_str().unwrap());
        let options = asked.lines().find_map(|line| line.strip_prefix(&name));
        let mut machine = Machine::new(&setup_of(options.unwrap_or_default())).unwrap();
        let lines = fs::read_to_string(&path).unwrap();
        let answers: Vec<String> = lines
            .lines()
            .map(|line| {
                let Some(step) = step_of(line) else {
                    return "bad line".to_owned();
                };
                assert_eq!(step_of(&step.to_string()), Some(step), "{step}");
                machine.step(step).unwrap().to_string()
            })
            .collect();
        let wanted = fs::read_to_string(path.with_extension("answers")).unwrap();
        assert_eq!(
            answers,
            wanted.lines().collect::<Vec<_>>(),
            "{}",
            path.display()
        );
        count += 1;
    }
    assert!(count > 0);
}
