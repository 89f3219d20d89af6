package io.github.zuphinka;

import java.time.Duration;
import java.time.Instant;

/** A time by {@link System#nanoTime}, and by the wall clock once that is asked for. */
final class Moment {
    /** How far apart two readings of one clock may be for a reading of another one between them, in nanoseconds. */
    private static final long CLOSE = 1_000;
    private static final int MOST_READINGS = 100;

    private final long nanoTime;
    private Instant instant;

    Moment(long nanoTime) {
        this.nanoTime = nanoTime;
    }

    static Moment now() {
        return new Moment(System.nanoTime());
    }

    /** Returns the time by the wall clock, as that is when it is first asked for. */
    Instant instant() {
        Instant known = instant;
        return known == null ? firstInstant() : known;
    }

    private synchronized Instant firstInstant() {
        if (instant == null) {
            instant = instantOf(nanoTime);
        }
        return instant;
    }

    /** Returns how long it was at another time, if that is a later one. */
    Duration until(Moment other) {
        return Duration.ofNanos(Math.max(0, other.nanoTime - nanoTime));
    }

    boolean isAfter(Moment other) {
        return nanoTime - other.nanoTime > 0;
    }

    /** Returns the time of a reading of {@link System#nanoTime}, by the wall clock as it is now. It is not before that reading. */
    static Instant instantOf(long nanoTime) {
        for (int readings = 1;; readings++) {
            long before = System.nanoTime();
            Instant now = Instant.now();
            if (System.nanoTime() - before < CLOSE || readings == MOST_READINGS) {
                return now.minusNanos(before - nanoTime);
            }
        }
    }
}
