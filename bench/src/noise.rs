//! Whether the rounds can be believed. A machine that others use takes now longer and now less for the same work, and medians then tell more of the
//! others than of the code. No other module is used here, so that the tests run without the libraries: `rustc --test bench/src/noise.rs`.

/// Fewer rounds are a try, of which nothing is written down.
const ENOUGH: usize = 31;

/// The greatest spread that is believed.
pub const MOST: f64 = 0.25;

/// What is done with a run.
#[derive(Debug, PartialEq)]
pub enum Verdict {
    /// Too few rounds: the table alone.
    Try,
    /// What was measured, and its spread, which is the greatest: no page.
    Noisy(String, f64),
    Believed,
}

/// How far three quarters of the rounds reach above the quickest: 0.1 where the slowest of them took a tenth longer. The last quarter is not
/// looked at: on a quiet machine too a round is disturbed now and then.
pub fn spread(times: &[f64]) -> f64 {
    let mut times = times.to_vec();
    times.sort_by(f64::total_cmp);
    match (times.first(), times.get(times.len() * 3 / 4)) {
        (Some(least), Some(most)) if *least > 0.0 => most / least - 1.0,
        _ => f64::INFINITY,
    }
}

/// Of everything that was measured the worst decides.
pub fn verdict(spreads: impl IntoIterator<Item = (String, f64)>, rounds: usize) -> Verdict {
    let worst = spreads.into_iter().max_by(|a, b| a.1.total_cmp(&b.1));
    match worst {
        _ if rounds < ENOUGH => Verdict::Try,
        Some((_, spread)) if spread <= MOST => Verdict::Believed,
        Some((what, spread)) => Verdict::Noisy(what, spread),
        None => Verdict::Noisy("nothing was measured".into(), f64::INFINITY),
    }
}

impl Verdict {
    /// Writes where the run is believed, and gives the exit status: 1 where it is not.
    pub fn settle(&self, write: impl FnOnce()) -> i32 {
        match self {
            Verdict::Try => eprintln!("bench: a try: with fewer than {ENOUGH} rounds nothing is written"),
            Verdict::Believed => write(),
            Verdict::Noisy(what, spread) => {
                eprintln!(
                    "bench: too noisy to believe, nothing is written: {what}: three quarters of the rounds reach {:.0} % above the quickest, \
                     {:.0} % is the most that is believed; run it on a quiet machine",
                    100.0 * spread,
                    100.0 * MOST
                );
                return 1;
            }
        }
        0
    }
}

#[cfg(test)]
mod tests {
    use super::*;

    /// So many rounds, each of this many nanoseconds more than the one before.
    fn rounds(n: usize, first: f64, step: f64) -> Vec<f64> {
        (0..n).map(|k| first + step * k as f64).collect()
    }

    fn settled(times: &[&[f64]], rounds: usize) -> (i32, bool) {
        let spreads = times.iter().enumerate().map(|(k, times)| (format!("column {k}"), spread(times)));
        let mut written = false;
        let status = verdict(spreads, rounds).settle(|| written = true);
        (status, written)
    }

    #[test]
    fn spread_is_of_three_quarters() {
        assert_eq!(spread(&rounds(101, 100.0, 0.0)), 0.0);
        assert_eq!(spread(&[200.0, 100.0, 110.0, 100.0, 125.0]), 0.25);
        assert_eq!(spread(&rounds(101, 100.0, 1.0)), 0.75);
        assert_eq!(spread(&[]), f64::INFINITY);
        assert_eq!(spread(&[0.0, 1.0]), f64::INFINITY);
    }

    #[test]
    fn a_quiet_run_is_written() {
        let (quiet, mut disturbed) = (rounds(101, 100.0, 0.1), rounds(101, 100.0, 0.1));
        assert_eq!(settled(&[&quiet, &quiet], 101), (0, true));
        // a fifth of the rounds is ten times as slow
        disturbed[..20].iter_mut().for_each(|time| *time *= 10.0);
        assert_eq!(settled(&[&quiet, &disturbed], 101), (0, true));
    }

    #[test]
    fn a_noisy_run_is_not() {
        let (quiet, mut noisy) = (rounds(101, 100.0, 0.1), rounds(101, 100.0, 0.1));
        noisy[40..80].iter_mut().for_each(|time| *time *= 1.5);
        assert_eq!(settled(&[&quiet, &noisy, &quiet], 101), (1, false));
        assert_eq!(settled(&[], 101), (1, false));
        let spreads = [("a".to_string(), 0.26), ("b".to_string(), 0.3), ("c".to_string(), 0.1)];
        assert_eq!(verdict(spreads, 101), Verdict::Noisy("b".into(), 0.3));
    }

    #[test]
    fn a_try_is_not_written_and_no_failure() {
        let quiet = rounds(30, 100.0, 0.1);
        assert_eq!(settled(&[&quiet], 30), (0, false));
        assert_eq!(settled(&[&rounds(31, 100.0, 0.1)], 31), (0, true));
    }
}
