//! Stand-in for `n0_future`: time in whole milliseconds.

pub mod time {
    use std::ops::{Add, Mul};

    /// A time on a clock of 64 bits. The sum of one and a delay is kept whole, so that none passes the top.
    #[derive(Clone, Copy, Debug, PartialEq, Eq, PartialOrd, Ord)]
    pub struct Instant {
        millis: u128,
    }

    impl Instant {
        pub const fn from_millis(millis: u64) -> Self {
            Self {
                millis: millis as u128,
            }
        }

        pub const fn as_millis(&self) -> u128 {
            self.millis
        }
    }

    impl Add<Duration> for Instant {
        type Output = Self;
        fn add(self, delay: Duration) -> Self {
            Self {
                millis: self.millis + u128::from(delay.millis),
            }
        }
    }

    #[derive(Clone, Copy, Debug, PartialEq, Eq, PartialOrd, Ord)]
    pub struct Duration {
        millis: u64,
    }

    /// The factor's denominator in 01's delay rule, 2^33.
    const DENOMINATOR: f64 = 8_589_934_592.0;

    impl Duration {
        pub const fn from_secs(secs: u64) -> Self {
            Self {
                millis: secs * 1000,
            }
        }

        pub const fn from_millis(millis: u64) -> Self {
            Self { millis }
        }

        pub const fn as_millis(&self) -> u64 {
            self.millis
        }

        /// 01's delay: floor(interval * (3 * 2^31 + d) / 2^33), where `factor` is the fraction.
        pub fn mul_f64(self, factor: f64) -> Self {
            let numerator = (factor * DENOMINATOR) as u64;
            assert_eq!(numerator as f64 / DENOMINATOR, factor, "not a delay factor");
            Self::from_millis(self.millis * numerator / DENOMINATOR as u64)
        }
    }

    impl Mul<u32> for Duration {
        type Output = Self;
        fn mul(self, times: u32) -> Self {
            Self::from_millis(self.millis * u64::from(times))
        }
    }
}
