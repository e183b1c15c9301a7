//! How much of the processor's time calls take, by the port and by the oracle.

pub mod calls;
pub mod checkpoints;
mod clock;
pub mod listing;
pub mod marks;
pub mod opening;
pub mod parts;
pub mod words;

use std::fmt::Write as _;
use std::time::Duration;

const ROUNDS: u128 = 41;
/// A round makes as many calls as take at least this long by the oracle, or by whoever is first.
const ROUND: Duration = Duration::from_millis(4);
/// Fewer rounds where they would take longer than this by that one.
const ALL: Duration = Duration::from_secs(2);

type Timed<'f> = &'f mut dyn FnMut();

fn time(times: u32, f: Timed) -> Duration {
    let start = clock::now();
    (0..times).for_each(|_| f());
    (clock::now() - start) / times
}

fn median(mut all: Vec<Duration>) -> Duration {
    all.sort();
    all[all.len() / 2]
}

fn ratio(ours: Duration, oracle: Duration) -> f64 {
    ours.as_secs_f64() / oracle.as_secs_f64()
}

/// The median of each; how often they are run goes by the first.
fn medians(runs: &mut [Timed]) -> Vec<Duration> {
    let once = time(3, runs[0]).max(Duration::from_nanos(1));
    let times = (ROUND.as_nanos() / once.as_nanos()).clamp(1, 10_000) as u32;
    let rounds = (ALL.as_nanos() / (once * times).as_nanos().max(1)).clamp(5, ROUNDS);
    let mut found = vec![Vec::new(); runs.len()];
    // In turn, so that all meet the same weather.
    for _ in 0..rounds {
        for (run, found) in runs.iter_mut().zip(&mut found) {
            found.push(time(times, *run));
        }
    }
    found.into_iter().map(median).collect()
}

/// A line with the medians: the oracle's first, then those of the others with their ratio to it, or
/// it to them.
fn line<'f>(what: &str, oracle: Timed<'f>, warm: Option<Timed<'f>>, ours: Option<Timed<'f>>) -> String {
    let mut runs: Vec<Timed> = vec![oracle];
    let (has_warm, has_ours) = (warm.is_some(), ours.is_some());
    runs.extend(warm);
    runs.extend(ours);
    let medians = medians(&mut runs);
    let mut out = format!("{what}: oracle {:>10.2?}", medians[0]);
    let ours = medians.last().copied().filter(|_| has_ours);
    if let Some(ours) = ours {
        write!(out, ", port {ours:>10.2?}, port/oracle {:.2}", ratio(ours, medians[0])).unwrap();
    }
    if has_warm {
        write!(out, "; opened before, oracle {:>10.2?}", medians[1]).unwrap();
        let ours = ours.map_or(String::new(), |ours| format!(", port/oracle {:.2}", ratio(ours, medians[1])));
        out += &ours;
    }
    out + "\n"
}

/// A line with the medians of two of the port's calls, the second's ratio to the first behind them.
fn beside<'f>(what: &str, first: (&str, Timed<'f>), second: (&str, Timed<'f>)) -> String {
    let medians = medians(&mut [first.1, second.1]);
    let ratio = ratio(medians[1], medians[0]);
    let times = format!("{} {:>10.2?}, {} {:>10.2?}", first.0, medians[0], second.0, medians[1]);
    format!("{what}: {times}, {}/{} {ratio:.2}\n", second.0, first.0)
}
