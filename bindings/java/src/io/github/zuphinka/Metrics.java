package io.github.zuphinka;

import java.io.IOException;
import java.util.ArrayList;
import java.util.List;

/**
 * The state of pools at one time, as a text in the OpenMetrics format, of the media type
 * {@code application/openmetrics-text; version=1.0.0; charset=utf-8}. {@link ZuphinkaPool#metrics} has that of one pool.
 *
 * <table>
 * <caption>The metrics of a pool, which have its name as the label {@code pool}</caption>
 * <tr><th>Metric</th><th>Type</th><th>Meaning</th></tr>
 * <tr><td>{@code zuphinka_idle_objects}</td><td>gauge</td><td>idle objects, including those under an idle test</td></tr>
 * <tr><td>{@code zuphinka_lent_objects}</td><td>gauge</td><td>lent objects</td></tr>
 * <tr><td>{@code zuphinka_waiting_borrows}</td><td>gauge</td><td>threads that wait for an object</td></tr>
 * <tr><td>{@code zuphinka_created_objects_total}</td><td>counter</td><td>objects that the pool asked its factory to make</td></tr>
 * <tr><td>{@code zuphinka_destroyed_objects_total}</td><td>counter</td><td>objects that were destroyed or could not be made, and abandoned ones that
 * were taken from their holders</td></tr>
 * <tr><td>{@code zuphinka_borrows_total}</td><td>counter</td><td>borrows that got an object</td></tr>
 * <tr><td>{@code zuphinka_timeouts_total}</td><td>counter</td><td>borrows whose time was over, with a {@link
 * java.util.NoSuchElementException}</td></tr>
 * <tr><td>{@code zuphinka_wait_seconds}</td><td>histogram</td><td>how long the borrows took that got an object, calls of the factory
 * included</td></tr>
 * <tr><td>{@code zuphinka_loan_seconds}</td><td>histogram</td><td>how long objects were lent, until they were returned or invalidated; abandoned ones
 * that were taken from their holders do not count</td></tr>
 * </table>
 *
 * <p>The buckets of both histograms have the bounds 1, 2.5 and 5 times each power of ten from 0.0001 to 10 seconds, and 100 seconds.
 */
public final class Metrics {
    private static final String END = "# EOF\n";

    /** What the text says of a pool. */
    static final class Snapshot {
        private final String label;
        private final Counts counts;
        private final int waiting;
        private final long timeouts;
        private final Histogram waits;
        private final Histogram loans;

        Snapshot(String label, Counts counts, int waiting, long timeouts, Histogram waits, Histogram loans) {
            this.label = label;
            this.counts = counts;
            this.waiting = waiting;
            this.timeouts = timeouts;
            this.waits = waits;
            this.loans = loans;
        }
    }

    private final List<Snapshot> pools;
    private final boolean hasEnd;

    private Metrics(List<Snapshot> pools, boolean hasEnd) {
        this.pools = pools;
        this.hasEnd = hasEnd;
    }

    Metrics(Snapshot pool) {
        this(List.of(pool), true);
    }

    /** Returns the label with the name of a pool. */
    static String label(String name) {
        return "pool=\"" + name.replace("\\", "\\\\").replace("\"", "\\\"").replace("\n", "\\n") + "\"";
    }

    /**
     * Adds other pools. In the format each metric comes once in a text, for all pools.
     *
     * @param other the metrics of pools of other names
     * @return the metrics of all pools
     */
    public Metrics and(Metrics other) {
        List<Snapshot> all = new ArrayList<>(pools);
        all.addAll(other.pools);
        return new Metrics(all, hasEnd);
    }

    /**
     * Leaves out the line {@code # EOF} at the end, for a program that adds metrics of its own.
     *
     * @return the same metrics, whose text has no end
     */
    public Metrics withoutEnd() {
        return new Metrics(pools, false);
    }

    /**
     * Writes the text.
     *
     * @param to what gets the text
     * @throws IOException if that throws it
     */
    public void writeTo(Appendable to) throws IOException {
        to.append(toString());
    }

    /**
     * Returns the text.
     *
     * @return the text, which ends in a line feed
     */
    @Override
    public String toString() {
        StringBuilder to = new StringBuilder();
        describe(to, "zuphinka_idle_objects", "gauge", "objects", "Idle objects.");
        pools.forEach(pool -> sample(to, "zuphinka_idle_objects", pool, pool.counts.idle()));
        describe(to, "zuphinka_lent_objects", "gauge", "objects", "Lent objects.");
        pools.forEach(pool -> sample(to, "zuphinka_lent_objects", pool, pool.counts.lent()));
        describe(to, "zuphinka_waiting_borrows", "gauge", "borrows", "Borrows that wait for an object.");
        pools.forEach(pool -> sample(to, "zuphinka_waiting_borrows", pool, pool.waiting));
        describe(to, "zuphinka_created_objects", "counter", "objects", "Objects that the pool began to make.");
        pools.forEach(pool -> sample(to, "zuphinka_created_objects_total", pool, pool.counts.created()));
        describe(to, "zuphinka_destroyed_objects", "counter", "objects", "Objects that were destroyed, reclaimed, or could not be made.");
        pools.forEach(pool -> sample(to, "zuphinka_destroyed_objects_total", pool, pool.counts.destroyed() + pool.counts.reclaimed()));
        describe(to, "zuphinka_borrows", "counter", "borrows", "Borrows that got an object.");
        pools.forEach(pool -> sample(to, "zuphinka_borrows_total", pool, pool.waits.total()));
        describe(to, "zuphinka_timeouts", "counter", "timeouts", "Borrows that timed out.");
        pools.forEach(pool -> sample(to, "zuphinka_timeouts_total", pool, pool.timeouts));
        describe(to, "zuphinka_wait_seconds", "histogram", "seconds", "How long borrows took that got an object.");
        pools.forEach(pool -> pool.waits.append(to, "zuphinka_wait_seconds", pool.label));
        String loans = "How long objects were lent that were not reclaimed, by the end of their loans.";
        describe(to, "zuphinka_loan_seconds", "histogram", "seconds", loans);
        pools.forEach(pool -> pool.loans.append(to, "zuphinka_loan_seconds", pool.label));
        return to.append(hasEnd ? END : "").toString();
    }

    private static void describe(StringBuilder to, String family, String type, String unit, String help) {
        to.append("# TYPE ").append(family).append(' ').append(type).append('\n');
        to.append("# UNIT ").append(family).append(' ').append(unit).append('\n');
        to.append("# HELP ").append(family).append(' ').append(help).append('\n');
    }

    private static void sample(StringBuilder to, String name, Snapshot pool, long number) {
        to.append(name).append('{').append(pool.label).append("} ").append(number).append('\n');
    }
}
