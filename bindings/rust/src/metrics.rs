//! What a pool measures, and its text in the OpenMetrics format.

use crate::counts::Counts;
use std::fmt::{self, Display, Formatter, Write};

/// The greatest time of each bucket but the last, which has no limit: in nanoseconds, and in seconds as the text has it.
const BOUNDS: [(u64, &str); 19] = [
    (100_000, "0.0001"),
    (250_000, "0.00025"),
    (500_000, "0.0005"),
    (1_000_000, "0.001"),
    (2_500_000, "0.0025"),
    (5_000_000, "0.005"),
    (10_000_000, "0.01"),
    (25_000_000, "0.025"),
    (50_000_000, "0.05"),
    (100_000_000, "0.1"),
    (250_000_000, "0.25"),
    (500_000_000, "0.5"),
    (1_000_000_000, "1.0"),
    (2_500_000_000, "2.5"),
    (5_000_000_000, "5.0"),
    (10_000_000_000, "10.0"),
    (25_000_000_000, "25.0"),
    (50_000_000_000, "50.0"),
    (100_000_000_000, "100.0"),
];

/// How many times are in each bucket, and their sum in nanoseconds, which begins again from 0 after 584 years.
#[derive(Clone, Debug, Default)]
pub(crate) struct Histogram {
    counts: [u64; BOUNDS.len() + 1],
    sum: u64,
}

impl Histogram {
    /// Counts the time between two readings of a clock, in nanoseconds modulo 2^64; if it went back, as none.
    #[inline]
    pub fn count(&mut self, begin: u64, end: u64) {
        let passed = end.wrapping_sub(begin);
        let passed = if passed > u64::MAX / 2 { 0 } else { passed };
        let bucket = BOUNDS.iter().position(|bound| passed <= bound.0);
        self.counts[bucket.unwrap_or(BOUNDS.len())] += 1;
        self.sum = self.sum.wrapping_add(passed);
    }

    fn total(&self) -> u64 {
        self.counts.iter().sum()
    }
}

/// What the lock of a pool protects of it.
#[derive(Clone, Debug, Default)]
pub(crate) struct Measures {
    /// How long the borrows took that got an object.
    pub waits: Histogram,
    /// How long the loans were that ended, except those of reclaimed objects.
    pub loans: Histogram,
    /// Borrows that timed out.
    pub timeouts: u64,
}

/// What the text says of a pool.
#[derive(Clone, Debug)]
pub(crate) struct Snapshot {
    pub name: String,
    pub counts: Counts,
    pub waiting: u64,
    pub measures: Measures,
}

/// The state of pools at one time, whose text ([`Display`](fmt::Display)) is in the OpenMetrics format, of the media type
/// `application/openmetrics-text; version=1.0.0; charset=utf-8`. [`Pool::metrics`](crate::Pool::metrics) has that of one pool.
///
/// | Metric | Type | Meaning |
/// |---|---|---|
/// | `zuphinka_idle_objects` | gauge | idle objects, including those under an idle test |
/// | `zuphinka_lent_objects` | gauge | lent objects |
/// | `zuphinka_waiting_borrows` | gauge | threads and tasks that wait for an object |
/// | `zuphinka_created_objects_total` | counter | objects that the pool asked the manager to make |
/// | `zuphinka_destroyed_objects_total` | counter | objects that were destroyed, detached or could not be made, and those that were reclaimed |
/// | `zuphinka_borrows_total` | counter | borrows that got an object |
/// | `zuphinka_timeouts_total` | counter | borrows that ended with [`Error::TimedOut`](crate::Error::TimedOut), for an object or for the sink, and not tasks that gave up |
/// | `zuphinka_wait_seconds` | histogram | how long the borrows took that got an object, calls of the manager included |
/// | `zuphinka_loan_seconds` | histogram | how long objects were lent, until returned, invalidated or detached; not of reclaimed ones |
///
/// The buckets of both histograms have the bounds 1, 2.5 and 5 times each power of ten from 0.0001 to 10 seconds, and 100 seconds. With a
/// [clock](crate::Builder::clock) of yours each time is as exact as that clock, in milliseconds. Each metric has the name of its pool as the label
/// `pool`.
#[derive(Clone, Debug)]
#[must_use = "it is a text that someone is to read"]
pub struct Metrics {
    pools: Vec<Snapshot>,
    has_end: bool,
}

impl Metrics {
    pub(crate) fn of(pool: Snapshot) -> Metrics {
        Metrics {
            pools: vec![pool],
            has_end: true,
        }
    }

    /// Adds other pools, of other names. In the format each metric comes once in a text, for all pools.
    pub fn and(mut self, other: Metrics) -> Metrics {
        self.pools.extend(other.pools);
        self
    }

    /// Leaves out the line `# EOF` at the end, for a program that adds metrics of its own.
    pub fn without_end(mut self) -> Metrics {
        self.has_end = false;
        self
    }
}

/// A name of a pool between quotes.
struct Quoted<'a>(&'a str);

impl Display for Quoted<'_> {
    fn fmt(&self, f: &mut Formatter<'_>) -> fmt::Result {
        f.write_char('"')?;
        for character in self.0.chars() {
            match character {
                '\n' => f.write_str("\\n")?,
                '"' | '\\' => write!(f, "\\{character}")?,
                _ => f.write_char(character)?,
            }
        }
        f.write_char('"')
    }
}

/// What a family says of a pool.
enum Value<'a> {
    Gauge(u64),
    Counter(u64),
    Histogram(&'a Histogram),
}

/// A family of metrics: its name, its unit, with which the name ends, its help, and its value of a pool.
struct Family {
    name: &'static str,
    unit: &'static str,
    help: &'static str,
    value: fn(&Snapshot) -> Value<'_>,
}

const FAMILIES: [Family; 9] = [
    Family {
        name: "zuphinka_idle_objects",
        unit: "objects",
        help: "Idle objects.",
        value: |pool| Value::Gauge(pool.counts.idle),
    },
    Family {
        name: "zuphinka_lent_objects",
        unit: "objects",
        help: "Lent objects.",
        value: |pool| Value::Gauge(pool.counts.lent),
    },
    Family {
        name: "zuphinka_waiting_borrows",
        unit: "borrows",
        help: "Borrows that wait for an object.",
        value: |pool| Value::Gauge(pool.waiting),
    },
    Family {
        name: "zuphinka_created_objects",
        unit: "objects",
        help: "Objects that the pool began to make.",
        value: |pool| Value::Counter(pool.counts.created),
    },
    Family {
        name: "zuphinka_destroyed_objects",
        unit: "objects",
        help: "Objects that were destroyed, reclaimed, or could not be made.",
        value: |pool| Value::Counter(pool.counts.destroyed + pool.counts.reclaimed),
    },
    Family {
        name: "zuphinka_borrows",
        unit: "borrows",
        help: "Borrows that got an object.",
        value: |pool| Value::Counter(pool.measures.waits.total()),
    },
    Family {
        name: "zuphinka_timeouts",
        unit: "timeouts",
        help: "Borrows that timed out.",
        value: |pool| Value::Counter(pool.measures.timeouts),
    },
    Family {
        name: "zuphinka_wait_seconds",
        unit: "seconds",
        help: "How long borrows took that got an object.",
        value: |pool| Value::Histogram(&pool.measures.waits),
    },
    Family {
        name: "zuphinka_loan_seconds",
        unit: "seconds",
        help: "How long objects were lent that were not reclaimed, by the end of their loans.",
        value: |pool| Value::Histogram(&pool.measures.loans),
    },
];

impl Family {
    fn kind(&self, pool: &Snapshot) -> &'static str {
        match (self.value)(pool) {
            Value::Gauge(_) => "gauge",
            Value::Counter(_) => "counter",
            Value::Histogram(_) => "histogram",
        }
    }

    fn write(&self, f: &mut Formatter<'_>, pool: &Snapshot) -> fmt::Result {
        let (name, label) = (self.name, Quoted(&pool.name));
        match (self.value)(pool) {
            Value::Gauge(number) => writeln!(f, "{name}{{pool={label}}} {number}"),
            Value::Counter(number) => writeln!(f, "{name}_total{{pool={label}}} {number}"),
            Value::Histogram(histogram) => write_histogram(f, name, &label, histogram),
        }
    }
}

fn write_histogram(
    f: &mut Formatter<'_>,
    name: &str,
    label: &Quoted<'_>,
    histogram: &Histogram,
) -> fmt::Result {
    let bounds = BOUNDS.iter().map(|bound| bound.1).chain(["+Inf"]);
    let mut total = 0;
    for (bound, count) in bounds.zip(histogram.counts) {
        total += count;
        writeln!(f, "{name}_bucket{{pool={label},le=\"{bound}\"}} {total}")?;
    }
    let (seconds, nanos) = (histogram.sum / 1_000_000_000, histogram.sum % 1_000_000_000);
    writeln!(f, "{name}_count{{pool={label}}} {total}")?;
    writeln!(f, "{name}_sum{{pool={label}}} {seconds}.{nanos:09}")
}

impl Display for Metrics {
    fn fmt(&self, f: &mut Formatter<'_>) -> fmt::Result {
        for family in &FAMILIES {
            let (name, unit, help) = (family.name, family.unit, family.help);
            writeln!(f, "# TYPE {name} {}", family.kind(&self.pools[0]))?;
            writeln!(f, "# UNIT {name} {unit}\n# HELP {name} {help}")?;
            self.pools
                .iter()
                .try_for_each(|pool| family.write(f, pool))?;
        }
        f.write_str(if self.has_end { "# EOF\n" } else { "" })
    }
}

#[cfg(test)]
mod tests {
    use super::{Histogram, BOUNDS};

    #[test]
    fn a_time_is_in_the_first_bucket_that_has_room_for_it() {
        for (n, bound) in BOUNDS.iter().enumerate() {
            let mut histogram = Histogram::default();
            histogram.count(5, 5 + bound.0);
            histogram.count(u64::MAX, bound.0);
            assert_eq!((histogram.counts[n], histogram.counts[n + 1]), (1, 1));
            assert_eq!(histogram.sum, 2 * bound.0 + 1);
        }
    }

    #[test]
    fn bounds_ascend_and_are_the_seconds_of_their_texts() {
        for (n, bound) in BOUNDS.iter().enumerate() {
            let seconds: f64 = bound.1.parse().unwrap();
            assert!((seconds * 1e9 - bound.0 as f64).abs() < 0.5);
            assert!(n == 0 || BOUNDS[n - 1].0 < bound.0);
        }
    }

    #[test]
    fn a_clock_that_goes_back_counts_as_no_time() {
        let mut histogram = Histogram::default();
        histogram.count(1_000_000, 999_999);
        assert_eq!((histogram.counts[0], histogram.sum), (1, 0));
    }
}
