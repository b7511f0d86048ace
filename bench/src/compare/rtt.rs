//! The waiting time, which the published Rust does not have: answers and estimators are held against document 02, §2, written again
//! here, and each step against RFC 6298's exact one, in fractions.

use crate::tally::{Plan, Tally};
use bluefin::sys;
use oracle::record::Xorshift;
use std::ops::{Add, Mul, Sub};

const LONGEST_SAMPLE: u64 = 60_000_000;
const LARGEST_SMOOTHED: u64 = 480_000_000;
const LARGEST_VARIATION: u64 = 240_000_000;

/// A new estimator comes once in so many commands.
const LONG: u64 = 100;

/// Its second number is above 0. It is not brought to lowest terms: no fraction here goes through more than a step.
#[derive(Clone, Copy)]
struct Fraction(i128, i128);

impl Add for Fraction {
    type Output = Self;
    fn add(self, other: Self) -> Self {
        Fraction(self.0 * other.1 + other.0 * self.1, self.1 * other.1)
    }
}

impl Sub for Fraction {
    type Output = Self;
    fn sub(self, other: Self) -> Self {
        self + Fraction(-other.0, other.1)
    }
}

impl Mul for Fraction {
    type Output = Self;
    fn mul(self, other: Self) -> Self {
        Fraction(self.0 * other.0, self.1 * other.1)
    }
}

impl Fraction {
    fn size(self) -> Self {
        Fraction(self.0.abs(), self.1)
    }

    fn is_below_half(self) -> bool {
        2 * self.0 < self.1
    }
}

/// SRTT and RTTVAR in microseconds, as they are stored.
fn stored(t: sys::Rtt) -> [Fraction; 2] {
    [
        Fraction(t.smoothed.into(), 8),
        Fraction(t.variation.into(), 4),
    ]
}

/// The same after a sample: RFC 6298, (2.2) and (2.3).
fn exactly_after(t: sys::Rtt, sample: u64) -> [Fraction; 2] {
    let r = Fraction(sample.into(), 1);
    if !t.sampled {
        return [r, r * Fraction(1, 2)];
    }
    let [srtt, rttvar] = stored(t);
    let (alpha, beta, one) = (Fraction(1, 8), Fraction(1, 4), Fraction(1, 1));
    [
        (one - alpha) * srtt + alpha * r,
        (one - beta) * rttvar + beta * (srtt - r).size(),
    ]
}

fn malformed(t: sys::Rtt) -> bool {
    t.smoothed > LARGEST_SMOOTHED || t.variation > LARGEST_VARIATION
}

/// Document 02, §2.
fn sampled(t: sys::Rtt, sample: u64) -> sys::Sampled {
    let refused = |refusal| sys::Sampled {
        estimator: t,
        refusal,
    };
    if sample > LONGEST_SAMPLE {
        return refused(14);
    }
    if malformed(t) {
        return refused(12);
    }
    let mut estimator = sys::Rtt {
        smoothed: 8 * sample,
        variation: 2 * sample,
        sampled: true,
    };
    if t.sampled {
        let e = sample as i64 - (t.smoothed / 8) as i64;
        estimator.smoothed = (t.smoothed as i64 + e) as u64;
        estimator.variation = t.variation + e.unsigned_abs() - t.variation / 4;
    }
    sys::Sampled {
        estimator,
        refusal: 0,
    }
}

fn wait_time(t: sys::Rtt) -> sys::Wait {
    let (micros, refusal) = match (malformed(t), t.sampled) {
        (true, _) => (0, 12),
        (false, false) => (1_000_000, 0),
        (false, true) => {
            let sum = t.smoothed / 8 + t.variation.max(1_000);
            (sum.clamp(1_000_000, 60_000_000), 0)
        }
    };
    sys::Wait { micros, refusal }
}

/// A number up to a bound, often a small one; at times about the bound, or any at all.
fn number(rng: &mut Xorshift, bound: u64) -> u64 {
    match rng.below(16) {
        0 => bound - 8 + rng.below(16),
        1 => rng.next(),
        2..=5 => rng.below(64),
        6..=9 => rng.below(bound / 1000),
        _ => rng.below(bound + 1),
    }
}

fn estimator(rng: &mut Xorshift) -> sys::Rtt {
    if rng.one_in(2) {
        // SAFETY: here and below, the call takes and answers numbers and bools of Rust's.
        return unsafe { sys::bluefin_rtt_new() };
    }
    sys::Rtt {
        smoothed: number(rng, LARGEST_SMOOTHED),
        variation: number(rng, LARGEST_VARIATION),
        sampled: rng.one_in(2),
    }
}

/// What is wrong with a sample's answer and the wait after it.
fn fault(t: sys::Rtt, sample: u64, told: sys::Sampled, wait: sys::Wait) -> Option<String> {
    let said = (sampled(t, sample), wait_time(told.estimator));
    if (told, wait) != said {
        return Some(format!("the paper says {said:?}"));
    }
    let exact = exactly_after(t, sample);
    let is_near = |(stored, exact): (Fraction, Fraction)| (stored - exact).size().is_below_half();
    let are_near = stored(told.estimator).into_iter().zip(exact).all(is_near);
    (told.refusal == 0 && !are_near).then(|| "the exact step is no nearer than 1/2".into())
}

/// Asks for a sample and the wait after it, in runs.
pub fn steps(plan: &Plan, thousandths: u64) -> Tally {
    let mut rng = Xorshift::seeded(plan.seed);
    let mut tally = Tally::named("rtt");
    let mut t = sys::Rtt::default();
    while tally.compared < plan.share(thousandths) {
        if rng.one_in(LONG) || malformed(t) {
            t = estimator(&mut rng);
        }
        let sample = number(&mut rng, LONGEST_SAMPLE);
        // SAFETY: as in `estimator`.
        let told = unsafe { sys::bluefin_rtt_sample(t, sample) };
        // SAFETY: as in `estimator`.
        let wait = unsafe { sys::bluefin_rtt_wait_time(told.estimator) };
        tally.compared += 1;
        if let Some(fault) = fault(t, sample, told, wait) {
            tally.differs(&format!(
                "on {t:?} and {sample} this library says {told:?} and {wait:?}, but {fault}"
            ));
        }
        t = told.estimator;
    }
    tally.print();
    tally
}
