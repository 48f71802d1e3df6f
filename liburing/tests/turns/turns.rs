// Threads by Rust's own library, for `uring-run --threads`: without a word they write down in which order they ran; with `lost` two of them read a number from a
// file and write the next, and one of these may be lost.
use std::collections::HashMap;
use std::sync::{mpsc, Arc, Condvar, Mutex};
use std::time::{Duration, Instant};
use std::{env, fs, process, thread};

fn write_order() {
    let (sender, receiver) = mpsc::channel();
    let ended = Arc::new((Mutex::new(0), Condvar::new()));
    let threads: Vec<_> = (0..4)
        .map(|number| {
            let (sender, ended) = (sender.clone(), ended.clone());
            thread::spawn(move || {
                for round in 0..10 {
                    sender.send(number * 100 + round).unwrap();
                    if round % 3 == 0 {
                        thread::sleep(Duration::from_micros(300));
                    }
                    thread::yield_now();
                }
                *ended.0.lock().unwrap() += 1;
                ended.1.notify_all();
            })
        })
        .collect();
    drop(sender);
    let begun = Instant::now();
    let order: Vec<_> = receiver.into_iter().collect();
    let mut count = ended.0.lock().unwrap();
    while *count < 4 {
        count = ended.1.wait(count).unwrap();
    }
    drop(count);
    threads.into_iter().for_each(|it| it.join().unwrap());
    let table: HashMap<_, _> = (0..5).map(|it| (it, it)).collect();
    println!("{:?} {:?} {:?}", order, table.keys().collect::<Vec<_>>(), begun.elapsed());
}

fn add(path: &str) {
    let number: u32 = fs::read_to_string(path).unwrap().parse().unwrap();
    fs::write(path, (number + 1).to_string()).unwrap();
}

fn main() {
    if env::args().nth(1).is_none() {
        return write_order();
    }
    let path = "turns.of.rust";
    fs::write(path, "0").unwrap();
    let threads: Vec<_> = (0..2).map(|_| thread::spawn(move || add(path))).collect();
    threads.into_iter().for_each(|it| it.join().unwrap());
    let number = fs::read_to_string(path).unwrap();
    fs::remove_file(path).unwrap();
    println!("{number}");
    process::exit((number != "2") as i32);
}
