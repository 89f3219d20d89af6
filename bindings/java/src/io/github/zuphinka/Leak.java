package io.github.zuphinka;

import java.time.Duration;

/** A loan that has lasted longer than {@link ZuphinkaPool#setLeakDetectionThreshold} says, as its listener is told it, once. */
public final class Leak {
    private final String pool;
    private final long object;
    private final long caller;
    private final String name;
    private final Duration duration;
    private final Throwable stack;

    Leak(String pool, long object, Lender lender, Duration duration) {
        this.pool = pool;
        this.object = object;
        this.caller = lender.caller;
        this.name = lender.name;
        this.stack = lender.stack;
        this.duration = duration;
    }

    /**
     * Returns the number of the object in the journal.
     *
     * @return a number that no other object of the pool has
     */
    public long objectNumber() {
        return object;
    }

    /**
     * Returns the number of the thread that borrowed it, in the journal.
     *
     * @return what {@link ZuphinkaPool#callerNumber} returned to that thread
     */
    public long callerNumber() {
        return caller;
    }

    /**
     * Returns the name that the thread had when it borrowed the object.
     *
     * @return the name; empty if it had none
     */
    public String callerName() {
        return name;
    }

    /**
     * Returns how long the loan has lasted.
     *
     * @return a time that is longer than the limit
     */
    public Duration duration() {
        return duration;
    }

    /**
     * Returns where the object was lent: an exception that nobody threw, whose stack is that of the borrow. Pass it to a logger.
     *
     * @return the exception; null unless {@link ZuphinkaPool#setLeakStackTraces} was set before the loan
     */
    public Throwable stack() {
        return stack;
    }

    /**
     * Returns what is known, without the stack.
     *
     * @return a text in one line
     */
    @Override
    public String toString() {
        String thread = name.isEmpty() ? "" : ", thread " + name;
        return "pool " + pool + ": object " + object + " has been lent for " + duration.toMillis() + " ms, to caller " + caller + thread;
    }
}
