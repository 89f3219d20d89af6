package io.github.zuphinka;

import java.util.concurrent.TimeUnit;

/** What a borrow that got no object found at its end: the numbers of its message. It takes no memory to note them. */
final class Shortage {
    private String pool;
    private long limitNanos;
    private long waitedNanos;
    private long lent;
    private long idle;
    private int waiting;
    private int maxTotal;

    /** Notes what there is, with the lock of the pool. */
    void note(String name, Call<?> call, Counts counts, int waiters, CoreSettings<?> settings) {
        pool = name;
        limitNanos = call.limit(settings);
        waitedNanos = System.nanoTime() - call.first;
        lent = counts.lent();
        idle = counts.idle();
        waiting = waiters;
        maxTotal = settings.maxTotal;
    }

    /** Returns the message of a borrow that waited as long as it may. */
    String timeout() {
        String limit = limitNanos == Long.MAX_VALUE ? "none" : millis(limitNanos);
        return "Timeout waiting for idle object: pool " + pool + ", limit " + limit + ", waited " + millis(waitedNanos) + counts();
    }

    /** Returns the message of a borrow that may not wait. */
    String exhausted() {
        return "Pool exhausted: pool " + pool + counts();
    }

    private static String millis(long nanos) {
        return TimeUnit.NANOSECONDS.toMillis(nanos) + " ms";
    }

    private String counts() {
        return ", lent " + lent + ", idle " + idle + ", waiting " + waiting + ", maxTotal " + maxTotal;
    }
}
