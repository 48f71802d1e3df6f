//! Gives random histories of a file to the proved volume and to a model that was written apart from it, and compares: what calls return, what reads show, which writes are safe, and what crashes leave. Of small histories all images of the model are had from the volume, whatever numbers leave is one of them, and the volume lists and counts the same ones, also after writes were folded. Then it asks the program of URING the same of random traces.
//!
//!     crashes [FIRST_SEED [SEEDS]]
//!
//! At a difference it prints the seed and what was done, and ends with status 1.

mod asked;
mod model;

use model::{End, File};
use std::collections::BTreeMap;
use std::process::ExitCode;
use wulgach::Volume;

/// How many images of a history are tried, and how many choices of numbers.
const IMAGES: usize = 2000;
const CHOICES: u64 = 20;

struct Rng(u64);

impl Rng {
    fn of(seed: u64) -> Rng {
        let mut rng = Rng(seed.wrapping_mul(0x9e37_79b9_7f4a_7c15) | 1);
        for _ in 0..8 {
            rng.below(1);
        }
        rng
    }

    fn below(&mut self, n: u64) -> u64 {
        self.0 ^= self.0 << 13;
        self.0 ^= self.0 >> 7;
        self.0 ^= self.0 << 17;
        (self.0 >> 16) % n
    }
}

/// What was done, in words, and the first difference.
struct Difference {
    done: Vec<String>,
    what: String,
}

struct Pair {
    file: File,
    volume: Volume,
    done: Vec<String>,
}

impl Pair {
    fn new(rng: &mut Rng) -> Pair {
        let unit = 1 + rng.below(3);
        let first = vec![b'.'; rng.below(5) as usize];
        Pair {
            file: File::new(unit, &first),
            volume: Volume::new(unit, &first).expect("memory"),
            done: vec![format!("units of {unit}, {} bytes first", first.len())],
        }
    }

    fn same<T: PartialEq + std::fmt::Debug>(
        &self,
        what: &str,
        model: T,
        volume: T,
    ) -> Result<(), Difference> {
        if model == volume {
            return Ok(());
        }
        Err(Difference {
            done: self.done.clone(),
            what: format!("{what}: {model:?} by the model, {volume:?} by the volume"),
        })
    }

    fn write(&mut self, rng: &mut Rng) -> Result<(), Difference> {
        let off = rng.below(6);
        let bytes = vec![b'a' + self.file.writes.len() as u8; rng.below(5) as usize];
        let volume = self.volume.begin_write(off, &bytes).expect("memory");
        self.done
            .push(format!("write {volume}: {} bytes at {off}", bytes.len()));
        self.same("the number of a write", self.file.next, volume)?;
        self.file.begin_write(off, bytes);
        Ok(())
    }

    /// A range that begins or ends amid a write, if one is long enough.
    fn cut(&self, rng: &mut Rng) -> Option<(u64, u64)> {
        let long: Vec<_> = self
            .file
            .writes
            .iter()
            .filter(|it| it.bytes.len() > 1)
            .collect();
        let write = long.get(rng.below(long.len().max(1) as u64) as usize)?;
        let amid = write.off + 1 + rng.below(write.bytes.len() as u64 - 1);
        Some(if rng.below(2) == 0 {
            (amid, amid + 1 + rng.below(6))
        } else {
            (write.off.saturating_sub(rng.below(3)), amid)
        })
    }

    fn sync(&mut self, rng: &mut Rng) -> Result<(), Difference> {
        let (from, to) = match rng.below(4) {
            0 => (rng.below(6), 1 + rng.below(9)),
            1 => self.cut(rng).unwrap_or((0, u64::MAX)),
            _ => (0, u64::MAX),
        };
        let volume = if to == u64::MAX {
            self.volume.begin_sync()
        } else {
            self.volume.begin_range_sync(from..to.max(from))
        };
        let volume = volume.expect("memory");
        self.done.push(format!("sync {volume}: {from} to {to}"));
        self.same("the number of a sync", self.file.next, volume)?;
        self.file.begin_sync(from, to.max(from));
        Ok(())
    }

    /// Ends something by any number, also by one that doesn't run; or fails the last sync, if it runs.
    fn end(&mut self, rng: &mut Rng) -> Result<(), Difference> {
        let running = self.file.syncs.last().filter(|it| it.ended.is_none());
        let fails = running.filter(|_| rng.below(4) == 0).map(|it| it.number);
        let number = fails.unwrap_or_else(|| rng.below(self.file.next + 1));
        let (model, volume) = match if fails.is_some() { 5 } else { rng.below(7) } {
            0..=2 => (
                self.file.end_write(number, End::Success),
                self.volume.end_write(number),
            ),
            6 => (
                self.file.end_write(number, End::Failure),
                self.volume.fail_write(number),
            ),
            3..=4 => (
                self.file.end_sync(number, End::Success),
                self.volume.end_sync(number),
            ),
            _ => (
                self.file.end_sync(number, End::Failure),
                self.volume.fail_sync(number),
            ),
        };
        self.done.push(format!("an end of {number}: {model}"));
        self.same("an end", model, volume)
    }

    fn look(&self) -> Result<(), Difference> {
        self.same(
            "a read",
            self.file.contents(),
            self.volume.contents().expect("memory"),
        )?;
        for write in &self.file.writes {
            self.same(
                &format!("write {} is safe", write.number),
                self.file.is_safe(write),
                self.volume.is_safe(write.number),
            )?;
        }
        Ok(())
    }

    /// Compares the volume's images, each once, and their number with the model's.
    fn list(&self, images: &BTreeMap<Vec<u8>, Vec<u64>>) -> Result<(), Difference> {
        self.same(
            "how many images there are",
            images.len() as u64,
            self.volume.count_images().expect("memory"),
        )?;
        let mut listed = self
            .volume
            .images(images.len() as u32)
            .expect("memory")
            .unwrap_or_default();
        listed.sort();
        self.same("the images", images.keys().cloned().collect(), listed)
    }

    /// Folds what can be folded, and looks at reads and images again: the model forgets nothing.
    fn fold(&mut self) -> Result<(), Difference> {
        self.volume.fold().expect("memory");
        self.done.push("a fold".to_string());
        self.same(
            "a read after a fold",
            self.file.contents(),
            self.volume.contents().expect("memory"),
        )?;
        match self.file.images(IMAGES) {
            Some(images) => self.list(&images),
            None => Ok(()),
        }
    }

    /// Has the volume leave what choices leave by the model, and if there are few images, each of them. Returns how many images were tried.
    fn crash(&self, rng: &mut Rng) -> Result<usize, Difference> {
        let images = self.file.images(IMAGES);
        for _ in 0..CHOICES {
            let count = rng.below(24) as usize;
            let choice = Volume::choice(rng.below(u64::MAX), self.file.next, count);
            let left = self.volume.crash(&choice).expect("memory");
            self.same(
                &format!("a crash by {choice:?}"),
                self.file.crash(&choice),
                left.clone(),
            )?;
            if let Some(images) = &images {
                self.same(
                    &format!("{left:?} may be left"),
                    images.contains_key(&left),
                    true,
                )?;
            }
        }
        let Some(images) = images else { return Ok(0) };
        self.list(&images)?;
        for (image, choice) in &images {
            let left = self.volume.crash(choice).expect("memory");
            self.same(&format!("an image, by {choice:?}"), image, &left)?;
        }
        Ok(images.len())
    }
}

fn play(seed: u64) -> Result<usize, Difference> {
    let mut rng = Rng::of(seed);
    let mut pair = Pair::new(&mut rng);
    let mut tried = 0;
    for _ in 0..4 + rng.below(16) {
        match rng.below(8) {
            0..=1 if pair.file.writes.len() < 5 => pair.write(&mut rng)?,
            2 => pair.sync(&mut rng)?,
            _ => pair.end(&mut rng)?,
        }
        pair.look()?;
    }
    tried += pair.crash(&mut rng)?;
    pair.fold()?;
    for _ in 0..6 {
        match rng.below(4) {
            0 if pair.file.writes.len() < 6 => pair.write(&mut rng)?,
            1 => pair.sync(&mut rng)?,
            _ => pair.end(&mut rng)?,
        }
        pair.fold()?;
    }
    Ok(tried)
}

fn main() -> ExitCode {
    let words: Vec<u64> = std::env::args()
        .skip(1)
        .map_while(|word| word.parse().ok())
        .collect();
    let (first, count) = (
        words.first().copied().unwrap_or(1),
        words.get(1).copied().unwrap_or(1000),
    );
    let mut images = 0;
    for seed in first..first + count {
        match play(seed) {
            Ok(tried) => images += tried,
            Err(difference) => {
                println!(
                    "seed {seed}\n{}\n{}",
                    difference.done.join("\n"),
                    difference.what
                );
                return ExitCode::FAILURE;
            }
        }
    }
    println!("crashes: {count} histories from seed {first} on, with all {images} images of the small ones: no difference");
    // Each question starts the program, so that there are fewer of these.
    let traces = count.div_ceil(10);
    let program = std::env::var("URING").unwrap_or_default();
    match asked::ask(&program, first..first + traces) {
        Ok(kept) => println!("crashes: {traces} traces from seed {first} on, of which the program was asked; {kept} of {} times each image had the bytes: no difference", 4 * traces),
        Err(what) => {
            println!("{what}");
            return ExitCode::FAILURE;
        }
    }
    ExitCode::SUCCESS
}
