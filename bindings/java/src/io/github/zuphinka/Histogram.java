package io.github.zuphinka;

/** How many times are in each of some buckets, and their sum. The lock of the pool protects it, or it is a copy. */
final class Histogram {
    /** The greatest time of each bucket but the last, which has no limit, in nanoseconds. */
    private static final long[] BOUNDS = {
        100_000L, 250_000L, 500_000L, 1_000_000L, 2_500_000L, 5_000_000L, 10_000_000L, 25_000_000L, 50_000_000L, 100_000_000L,
        250_000_000L, 500_000_000L, 1_000_000_000L, 2_500_000_000L, 5_000_000_000L, 10_000_000_000L, 25_000_000_000L, 50_000_000_000L,
        100_000_000_000L,
    };
    /** The same in seconds, as a text of metrics has it, and that of the last bucket. */
    private static final String[] SECONDS = {
        "0.0001", "0.00025", "0.0005", "0.001", "0.0025", "0.005", "0.01", "0.025", "0.05", "0.1", "0.25", "0.5", "1.0", "2.5", "5.0", "10.0",
        "25.0", "50.0", "100.0", "+Inf",
    };

    private final long[] counts;
    /** In nanoseconds; it begins again from 0 after 584 years. */
    private long sum;

    Histogram() {
        counts = new long[BOUNDS.length + 1];
    }

    private Histogram(Histogram other) {
        counts = other.counts.clone();
        sum = other.sum;
    }

    Histogram copy() {
        return new Histogram(this);
    }

    /** Counts a time, in nanoseconds from 0. */
    void count(long nanos) {
        int bucket = 0;
        while (bucket < BOUNDS.length && nanos > BOUNDS[bucket]) {
            bucket++;
        }
        counts[bucket]++;
        sum += nanos;
    }

    /** Returns the sum of the times, in nanoseconds. */
    long sum() {
        return sum;
    }

    /** Returns how many times there are. */
    long total() {
        long total = 0;
        for (long count : counts) {
            total += count;
        }
        return total;
    }

    /** Appends the samples of a family for a pool, whose name is a label. */
    void append(StringBuilder to, String family, String label) {
        long total = 0;
        for (int bucket = 0; bucket < counts.length; bucket++) {
            total += counts[bucket];
            to.append(family).append("_bucket{").append(label).append(",le=\"").append(SECONDS[bucket]).append("\"} ").append(total).append('\n');
        }
        to.append(family).append("_count{").append(label).append("} ").append(total).append('\n');
        String seconds = Long.toUnsignedString(Long.divideUnsigned(sum, 1_000_000_000L));
        String rest = Long.toString(1_000_000_000L + Long.remainderUnsigned(sum, 1_000_000_000L)).substring(1);
        to.append(family).append("_sum{").append(label).append("} ").append(seconds).append('.').append(rest).append('\n');
    }
}
