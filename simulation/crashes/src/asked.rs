//! Asks the program of all images after random traces, and compares its answers with the model's: how many there are, which, and whether each has some bytes.

use crate::model::{End, File};
use crate::{Rng, IMAGES};
use std::io::Write;
use std::process::{Command, Stdio};

/// A trace of writes and syncs of one file, and the model of that file.
struct Traced {
    file: File,
    text: String,
}

/// What a request is, and its number in the model once it runs.
struct Request {
    write: Option<(u64, Vec<u8>)>,
    number: Option<u64>,
}

impl Traced {
    fn new(rng: &mut Rng) -> Traced {
        let mut requests: Vec<Request> = (0..3 + rng.below(5))
            .map(|_| Request {
                write: (rng.below(4) > 0)
                    .then(|| (rng.below(6), vec![0; 1 + rng.below(4) as usize])),
                number: None,
            })
            .collect();
        let mut text = String::new();
        for (at, request) in requests.iter_mut().enumerate() {
            if let Some((off, bytes)) = &mut request.write {
                // Now and then two writes write the same bytes, or zeros.
                bytes.fill([0, 0x61, 0x61, 0x62, 0x63 + at as u8][rng.below(5) as usize]);
                let digits: String = bytes.iter().map(|byte| format!("{byte:02x}")).collect();
                text += &format!("fill {at} write {at} - 0 {off} {digits}\n");
            } else {
                text += &format!("fill {at} fsync {at} - 0\n");
            }
            text += &format!("index {at}\n");
        }
        let count = requests.len();
        text += &format!("tail\nbegin {count}\n{}end\n", "take\n".repeat(count));
        let mut traced = Traced {
            file: File::new([1, 1, 2, 4][rng.below(4) as usize], b""),
            text,
        };
        for _ in 0..2 * count as u64 + rng.below(2 * count as u64) {
            let at = rng.below(count as u64) as usize;
            traced.move_on(at, &mut requests[at], rng.below(2) == 0);
            // Half of them end at once, so that later syncs cover them.
            if rng.below(2) == 0 {
                traced.move_on(at, &mut requests[at], false);
            }
        }
        traced
    }

    /// Issues a request, or finishes it.
    fn move_on(&mut self, at: usize, request: &mut Request, is_issue: bool) {
        self.text += &format!("{} {at}\n", if is_issue { "issue" } else { "finish" });
        match (&request.write, request.number) {
            (Some((off, bytes)), None) if is_issue => {
                request.number = Some(self.file.begin_write(*off, bytes.clone()));
            }
            (None, None) if is_issue => {
                request.number = Some(self.file.next);
                self.file.begin_sync(0, u64::MAX);
            }
            (Some(_), Some(number)) if !is_issue => drop(self.file.end_write(number, End::Success)),
            (None, Some(number)) if !is_issue => drop(self.file.end_sync(number, End::Success)),
            _ => {}
        }
    }

    /// What the program writes, and its status.
    fn asks(&self, program: &str, words: &[&str]) -> (i32, String) {
        let unit = self.file.unit.to_string();
        let mut run = Command::new(program)
            .args(["crash", "--sq", "8", "--unit", &unit])
            .args(words)
            .stdin(Stdio::piped())
            .stdout(Stdio::piped())
            .stderr(Stdio::null())
            .spawn()
            .expect("the program");
        let mut stdin = run.stdin.take().expect("a pipe");
        stdin.write_all(self.text.as_bytes()).expect("a pipe");
        drop(stdin);
        let output = run.wait_with_output().expect("the program");
        let text = String::from_utf8(output.stdout).expect("text");
        (output.status.code().unwrap_or(-1), text)
    }

    fn same<T: PartialEq + std::fmt::Debug>(
        &self,
        what: &str,
        model: T,
        program: T,
    ) -> Result<(), String> {
        if model == program {
            return Ok(());
        }
        Err(format!(
            "units of {}\n{}{what}: {model:?} by the model, {program:?} by the program",
            self.file.unit, self.text
        ))
    }

    /// How many images there are, and which.
    fn list(&self, program: &str) -> Result<(), String> {
        let Some(images) = self.file.images(IMAGES) else {
            return Ok(());
        };
        let last = format!("images {}", images.len());
        self.same("--count", (0, format!("{last}\n")), self.asks(program, &["--count"]))?;
        let (status, text) = self.asks(program, &["--all", "--most", "10000"]);
        let mut lines: Vec<&str> = text.lines().collect();
        self.same("--all, its end", (0, Some(last.as_str())), (status, lines.pop()))?;
        lines.sort();
        let mut wanted: Vec<String> = images.keys().map(|image| line(image)).collect();
        wanted.sort();
        self.same("--all", wanted, lines.iter().map(|it| it.to_string()).collect())?;
        let most = images.len().saturating_sub(1).to_string();
        if images.len() > 1 {
            let told = self.asks(program, &["--all", "--most", &most]);
            self.same("--all --most", (3, String::new()), told)?;
        }
        Ok(())
    }

    /// Whether each image has some bytes. Returns whether it is so.
    fn hold(&self, program: &str, rng: &mut Rng) -> Result<bool, String> {
        let off = rng.below(7);
        let shown = self.file.contents();
        let mut bytes: Vec<u8> = shown.iter().skip(off as usize).copied().collect();
        bytes.truncate(1 + rng.below(4) as usize);
        if bytes.is_empty() || rng.below(5) == 0 {
            bytes = vec![[0, 0x61][rng.below(2) as usize]];
        }
        let digits: String = bytes.iter().map(|byte| format!("{byte:02x}")).collect();
        let (status, text) = self.asks(program, &["--holds", "--", &off.to_string(), &digits]);
        let what = format!("--holds -- {off} {digits}");
        let is_so = self.file.holds(off, &bytes);
        self.same(&what, if is_so { 0 } else { 1 }, status)?;
        let first = format!("kept at {off}: {digits}");
        if is_so {
            self.same(&what, format!("{first}\n"), text)?;
            return Ok(true);
        }
        let mut lines = text.lines();
        let told = lines.next().unwrap_or_default();
        self.same(&what, format!("not {first}").as_str(), told)?;
        let image = bytes_of(lines.next().unwrap_or_default());
        let there = image.iter().skip(off as usize).take(bytes.len());
        self.same(&what, false, there.eq(bytes.iter()))?;
        if let Some(images) = self.file.images(IMAGES) {
            self.same(&what, true, images.contains_key(&image))?;
        }
        Ok(false)
    }
}

/// The line of an image.
fn line(image: &[u8]) -> String {
    let digits: String = image.iter().map(|byte| format!("{byte:02x}")).collect();
    let data = if image.is_empty() { "-" } else { &digits };
    format!("len {} data {data}", image.len())
}

/// The bytes of the line of an image.
fn bytes_of(line: &str) -> Vec<u8> {
    let digits = line.rsplit(' ').next().unwrap_or_default();
    let pairs = digits.as_bytes().chunks(2);
    pairs
        .filter_map(|pair| u8::from_str_radix(std::str::from_utf8(pair).ok()?, 16).ok())
        .collect()
}

/// Asks the program of the traces of these seeds, four times each of bytes. Returns how often each image had them.
pub fn ask(program: &str, seeds: std::ops::Range<u64>) -> Result<usize, String> {
    let mut kept = 0;
    for seed in seeds {
        let mut rng = Rng::of(seed);
        let traced = Traced::new(&mut rng);
        let told = traced.list(program).and_then(|()| {
            (0..4).try_fold(0, |so, _| Ok(so + usize::from(traced.hold(program, &mut rng)?)))
        });
        kept += told.map_err(|what| format!("seed {seed}\n{what}"))?;
    }
    Ok(kept)
}
