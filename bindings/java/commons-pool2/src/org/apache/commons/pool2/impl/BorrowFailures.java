package org.apache.commons.pool2.impl;

import java.time.Duration;
import java.util.NoSuchElementException;
import java.util.Set;

/** What borrows throw that got no object: what the library throws, with the name and the numbers of the pool behind its message. */
final class BorrowFailures {
    private static final String TIMEOUT = "Timeout waiting for idle object";
    private static final String EXHAUSTED = "Pool exhausted";
    /** What follows these in a message of the pool: its name, and the numbers of objects. */
    private static final String NUMBERS = ": pool ";
    /** The other messages of borrows that got no object. */
    private static final Set<String> OTHERS = Set.of("Unable to activate object", "Unable to validate object");

    private final BaseGenericObjectPool<?> pool;

    BorrowFailures(BaseGenericObjectPool<?> pool) {
        this.pool = pool;
    }

    /** Returns the exception for a failure of the proved pool. Without a longest wait the borrow may not wait. */
    Exception of(Exception failure, Duration longest) {
        if (failure instanceof NoSuchElementException) {
            return none((NoSuchElementException) failure, longest);
        }
        if (failure instanceof InterruptedException) {
            return longest == null ? exhausted() : failure;
        }
        return failure.getCause() instanceof InterruptedException ? closed(failure) : failure;
    }

    private NoSuchElementException none(NoSuchElementException failure, Duration longest) {
        String given = String.valueOf(failure.getMessage());
        boolean isTimeout = given.startsWith(TIMEOUT + NUMBERS);
        String timeout = longest == null ? EXHAUSTED : TIMEOUT + ", borrowMaxWaitDuration=" + longest;
        String message = pool.appendStats(isTimeout ? timeout + given.substring(TIMEOUT.length()) : given);
        boolean hasNumbers = isTimeout || given.startsWith(EXHAUSTED + NUMBERS);
        boolean isOwn = failure.getClass() == NoSuchElementException.class && (hasNumbers || OTHERS.contains(given));
        if (!isOwn || message.equals(given)) {
            return failure;
        }
        NoSuchElementException told = new NoSuchElementException(message);
        told.initCause(failure.getCause());
        return told;
    }

    /** Returns the exception of a borrow whose thread is interrupted, and stays so: it may not wait. */
    private NoSuchElementException exhausted() {
        Thread.currentThread().interrupt();
        return new NoSuchElementException(pool.appendStats(EXHAUSTED));
    }

    /** Returns the exception of a borrow that waited, and which a close has ended. */
    private static InterruptedException closed(Exception failure) {
        InterruptedException closed = new InterruptedException("The pool was closed");
        closed.initCause(failure);
        return closed;
    }
}
