//! How long to wait before sending again.

use crate::refusal::Refusal;
use crate::sys;
use std::time::Duration;

/// What the round trips measured so far come to: the smoothed trip and its variation, as RFC 6298 has them. Small, and owned by whoever
/// holds it.
#[derive(Clone, Copy, Debug, PartialEq, Eq)]
pub struct RttEstimator(sys::Rtt);

impl RttEstimator {
    /// Before any sample.
    pub fn new() -> Self {
        // SAFETY: here and below, the call takes and answers numbers and bools of Rust's.
        RttEstimator(unsafe { sys::bluefin_rtt_new() })
    }

    /// The smoothed trip, exactly; none before any sample. It is stored in eighths of a microsecond.
    pub fn smoothed(&self) -> Option<Duration> {
        let nanos = self.0.smoothed * 125;
        self.0.sampled.then_some(Duration::from_nanos(nanos))
    }

    /// Its variation, exactly; none before any sample. It is stored in quarters of a microsecond.
    pub fn variation(&self) -> Option<Duration> {
        let nanos = self.0.variation * 250;
        self.0.sampled.then_some(Duration::from_nanos(nanos))
    }

    /// A round trip that took so long; what is less than a microsecond does not count. Refusal: 14, more than 60,000,000 microseconds.
    pub fn sample(&mut self, trip: Duration) -> Result<(), Refusal> {
        let micros = u64::try_from(trip.as_micros()).unwrap_or(u64::MAX);
        // SAFETY: as in `new`.
        let sampled = unsafe { sys::bluefin_rtt_sample(self.0, micros) };
        self.0 = sampled.estimator;
        Refusal::or(sampled.refusal, ())
    }

    /// How long to wait for an ack before sending again: a second to a minute, and a second before any sample.
    pub fn wait_time(&self) -> Duration {
        // Refusal 12, the only one, is of numbers that the estimator owned here never has.
        // SAFETY: as in `new`.
        Duration::from_micros(unsafe { sys::bluefin_rtt_wait_time(self.0) }.micros)
    }
}

impl Default for RttEstimator {
    fn default() -> Self {
        Self::new()
    }
}

#[cfg(test)]
mod tests {
    use super::*;

    fn after(trips: &[u64]) -> RttEstimator {
        let mut estimator = RttEstimator::new();
        for &micros in trips {
            assert_eq!(estimator.sample(Duration::from_micros(micros)), Ok(()));
        }
        estimator
    }

    #[test]
    fn before_any_sample_a_second() {
        let estimator = RttEstimator::default();
        assert_eq!((estimator.smoothed(), estimator.variation()), (None, None));
        assert_eq!(estimator.wait_time(), Duration::from_secs(1));
    }

    /// Document 02, §2: the first sets 8R and 2R; then e is 700,001 − 900,000.
    #[test]
    fn two_samples() {
        let estimator = after(&[900_000, 700_001]);
        let smoothed = Duration::from_nanos(7_000_001 * 125);
        let variation = Duration::from_nanos(1_549_999 * 250);
        assert_eq!(estimator.smoothed(), Some(smoothed));
        assert_eq!(estimator.variation(), Some(variation));
        let wait = Duration::from_micros(875_000 + 1_549_999);
        assert_eq!(estimator.wait_time(), wait);
    }

    #[test]
    fn a_sample_of_nothing_is_one() {
        let estimator = after(&[0, 8]);
        assert_eq!(estimator.smoothed(), Some(Duration::from_micros(1)));
        assert_eq!(after(&[8]).smoothed(), Some(Duration::from_micros(8)));
    }

    #[test]
    fn a_wait_has_two_bounds() {
        assert_eq!(after(&[1]).wait_time(), Duration::from_secs(1));
        assert_eq!(after(&[60_000_000]).wait_time(), Duration::from_secs(60));
    }

    #[test]
    fn more_than_a_minute_is_refused_and_leaves_all() {
        let mut estimator = after(&[1_000]);
        let long = [Duration::from_micros(60_000_001), Duration::MAX];
        for trip in long {
            assert_eq!(estimator.sample(trip), Err(Refusal::SampleTooLong));
        }
        assert_eq!(estimator, after(&[1_000]));
    }
}
