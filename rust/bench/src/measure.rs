//! Timing: all contenders in turn, again and again, and of each the best run, in processor time.

use std::fs;
use std::sync::OnceLock;
use std::thread;
use std::time::Instant;

/// One contender: a name, the number of the one that it is compared with, and a run, which tells whether the frame is done.
pub struct Contender<'a> {
    pub name: &'static str,
    pub against: usize,
    pub run: Box<dyn FnMut() -> bool + 'a>,
}

/// The processor time that this thread has used, in seconds, where the system tells it: other programs on the machine then
/// count for little. Else the time of day. The system brings its count up to date where a thread yields, and else only some
/// hundred times a second.
fn clock() -> f64 {
    static BEGAN: OnceLock<Instant> = OnceLock::new();
    thread::yield_now();
    let told = fs::read_to_string("/proc/thread-self/schedstat").ok();
    let nanoseconds = told.and_then(|text| text.split(' ').next()?.parse::<u64>().ok());
    match nanoseconds {
        Some(nanoseconds) => nanoseconds as f64 / 1e9,
        None => BEGAN.get_or_init(Instant::now).elapsed().as_secs_f64(),
    }
}

/// The least time that is measured at once: shorter runs are repeated.
const LEAST: f64 = 0.1;

/// The best time of each contender in seconds, over `runs` rounds.
pub fn best(contenders: &mut [Contender], runs: usize) -> Vec<f64> {
    let mut best = vec![f64::INFINITY; contenders.len()];
    for _ in 0..runs {
        for (contender, best) in contenders.iter_mut().zip(&mut best) {
            let (began, mut times, mut used) = (clock(), 0, 0.0);
            while used < LEAST {
                // Doubling keeps the clock's own cost out of short runs.
                for _ in 0..times.max(1) {
                    (contender.run)();
                }
                times += times.max(1);
                used = clock() - began;
            }
            *best = best.min(used / f64::from(times));
        }
    }
    best
}

/// Prints a line for each contender; without a rate where no samples are given, as of a frame that is refused.
pub fn print(frame: &str, samples: Option<usize>, contenders: &[Contender], best: &[f64]) {
    println!("{frame}");
    for (contender, &seconds) in contenders.iter().zip(best) {
        let (ms, ratio) = (seconds * 1e3, seconds / best[contender.against]);
        match samples.map(|samples| samples as f64 / seconds / 1e6) {
            Some(rate) => println!("  {:<34} {ms:>9.2} ms {rate:>7.1} Msamples/s  ratio {ratio:>6.3}", contender.name),
            None => println!("  {:<34} {ms:>9.5} ms", contender.name),
        }
    }
}
