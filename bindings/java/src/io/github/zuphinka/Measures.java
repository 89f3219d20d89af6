package io.github.zuphinka;

/** What a pool counts and measures besides its core. The lock of the pool protects it. */
final class Measures {
    private long borrowed;
    private long returned;
    private long failedOnBorrow;
    private long longestWaitNanos;
    private long timeouts;
    /** How long the borrows took that got an object. */
    private final Histogram waits = new Histogram();
    /** How long the loans were that ended, except those of objects that were taken from their holders. */
    private final Histogram loans = new Histogram();

    /** Notes that a borrow has lent an object, and how long it took. Returns the object. */
    <T> Member<T> lend(Member<T> member, long now, long nanos) {
        borrowed++;
        waits.count(nanos);
        longestWaitNanos = Math.max(longestWaitNanos, nanos);
        member.lend(now);
        return member;
    }

    /** Notes that a lent object is returned. */
    void giveBack(Member<?> member, long now) {
        returned++;
        loans.count(member.loanNanos(now));
        member.giveBack(now);
    }

    /** Notes that a loan is over, and its object does not come back. */
    void end(Member<?> member, long now) {
        loans.count(member.loanNanos(now));
        member.end();
    }

    /** Notes that an object has failed the test of a borrow. */
    void failOnBorrow() {
        failedOnBorrow++;
    }

    /** Notes that the time of a borrow is over. */
    void timeOut() {
        timeouts++;
    }

    Usage usage(int waiters) {
        return new Usage(borrowed, returned, failedOnBorrow, waits.sum(), longestWaitNanos, waiters);
    }

    Metrics.Snapshot snapshot(String label, Counts counts, int waiters) {
        return new Metrics.Snapshot(label, counts, waiters, timeouts, waits.copy(), loans.copy());
    }
}
