//! When a pool was opened, as the folder of its journal has it.

use std::fmt::{self, Display, Formatter};
use std::process;
use std::time::{Duration, SystemTime, UNIX_EPOCH};

/// The start of a pool: with it the times of entries are times of day.
#[derive(Clone, Copy, Debug, PartialEq, Eq)]
#[non_exhaustive]
pub struct Start {
    /// The wall-clock time at which the pool was opened.
    pub started: SystemTime,
    /// The wall-clock time that time 0 of the pool's entries stands for; none if no time of a year from 0 to 9999 is that.
    pub zero: Option<SystemTime>,
    /// The id of the process.
    pub process: u32,
}

impl Start {
    /// A start of this process now, at a time by the pool's clock, in milliseconds, if that is known.
    pub(crate) fn now(time: Option<u64>) -> Start {
        let started = SystemTime::now();
        let zero = time.and_then(|millis| started.checked_sub(Duration::from_millis(millis)));
        Start {
            started,
            zero: zero.filter(|zero| (0..10_000).contains(&Utc::of(*zero).year)),
            process: process::id(),
        }
    }

    /// Returns the name of the folder that belongs to this start, unless another has it.
    pub(crate) fn name(&self) -> String {
        let utc = Utc::of(self.started);
        let [year, month, day] = [utc.year, utc.month, utc.day];
        let [hour, minute, second] = [utc.hour, utc.minute, utc.second];
        let process = self.process;
        format!("{year:04}{month:02}{day:02}T{hour:02}{minute:02}{second:02}Z-{process}")
    }

    /// Returns the start as a text in TOML.
    pub(crate) fn to_toml(self) -> String {
        let started = Utc::of(self.started);
        let zero = self
            .zero
            .map(|zero| format!("zero = \"{}\"\n", Utc::of(zero)));
        let (zero, process) = (zero.unwrap_or_default(), self.process);
        format!("started = \"{started}\"\n{zero}process = {process}\n")
    }
}

/// A time in UTC, by the calendar.
struct Utc {
    year: i64,
    month: i64,
    day: i64,
    hour: i64,
    minute: i64,
    second: i64,
    millisecond: i64,
}

const MILLIS_OF_DAY: i64 = 24 * 60 * 60 * 1_000;

/// Returns the milliseconds since the beginning of 1970, rounded down.
fn millis_of(time: SystemTime) -> i64 {
    let millis = |passed: u128| i64::try_from(passed).unwrap_or(i64::MAX);
    match time.duration_since(UNIX_EPOCH) {
        Ok(after) => millis(after.as_millis()),
        Err(before) => -millis(before.duration().as_nanos().div_ceil(1_000_000)),
    }
}

impl Utc {
    fn of(time: SystemTime) -> Utc {
        let millis = millis_of(time);
        let (days, of_day) = (
            millis.div_euclid(MILLIS_OF_DAY),
            millis.rem_euclid(MILLIS_OF_DAY),
        );
        // Days since the first of March of the year 0, in eras of 400 years; a year ends with February.
        let days = days + 719_468;
        let (era, of_era) = (days.div_euclid(146_097), days.rem_euclid(146_097));
        let year = (of_era - of_era / 1_460 + of_era / 36_524 - of_era / 146_096) / 365;
        let of_year = of_era - (365 * year + year / 4 - year / 100);
        let from_march = (5 * of_year + 2) / 153;
        let month = if from_march < 10 {
            from_march + 3
        } else {
            from_march - 9
        };
        Utc {
            year: era * 400 + year + i64::from(month <= 2),
            month,
            day: of_year - (153 * from_march + 2) / 5 + 1,
            hour: of_day / 3_600_000,
            minute: of_day / 60_000 % 60,
            second: of_day / 1_000 % 60,
            millisecond: of_day % 1_000,
        }
    }
}

/// As in RFC 3339, with milliseconds.
impl Display for Utc {
    fn fmt(&self, f: &mut Formatter<'_>) -> fmt::Result {
        write!(f, "{:04}-{:02}-{:02}", self.year, self.month, self.day)?;
        write!(f, "T{:02}:{:02}:{:02}", self.hour, self.minute, self.second)?;
        write!(f, ".{:03}Z", self.millisecond)
    }
}

#[cfg(test)]
mod tests {
    use super::{Start, Utc};
    use std::time::{Duration, UNIX_EPOCH};

    /// The texts are from `date --utc --date=@SECONDS`.
    #[test]
    fn times_are_those_of_the_calendar() {
        let times = [
            (-62_167_219_200_000_i64, "0000-01-01T00:00:00.000Z"),
            (-1, "1969-12-31T23:59:59.999Z"),
            (0, "1970-01-01T00:00:00.000Z"),
            (951_782_399_999, "2000-02-28T23:59:59.999Z"),
            (951_782_400_000, "2000-02-29T00:00:00.000Z"),
            (951_868_800_000, "2000-03-01T00:00:00.000Z"),
            (1_796_010_897_123, "2026-11-30T03:54:57.123Z"),
            (4_107_542_400_000, "2100-03-01T00:00:00.000Z"),
        ];
        for (millis, text) in times {
            let time = match u64::try_from(millis) {
                Ok(after) => UNIX_EPOCH + Duration::from_millis(after),
                Err(_) => UNIX_EPOCH - Duration::from_millis(millis.unsigned_abs()),
            };
            assert_eq!(Utc::of(time).to_string(), text);
        }
    }

    #[test]
    fn a_start_has_a_name_and_a_text() {
        let started = UNIX_EPOCH + Duration::from_millis(1_796_010_897_123);
        let (zero, process) = (Some(started - Duration::from_millis(3)), 4711);
        let start = Start {
            started,
            zero,
            process,
        };
        assert_eq!(start.name(), "20261130T035457Z-4711");
        let text = "started = \"2026-11-30T03:54:57.123Z\"\nzero = \"2026-11-30T03:54:57.120Z\"\nprocess = 4711\n";
        assert_eq!(start.to_toml(), text);
    }

    #[test]
    fn no_year_is_the_zero_of_an_absurd_clock() {
        assert!(Start::now(Some(5_000)).zero.is_some());
        assert!(Start::now(Some(u64::MAX)).zero.is_none() && Start::now(None).zero.is_none());
    }
}
