package io.github.zuphinka;

import java.time.Instant;
import org.apache.commons.pool2.PooledObject;

/** An object of a pool: it has a place, or it was reclaimed and its holder still has it. */
final class Member<T> {
    /** The token by which the core names it. */
    final int slot;
    /** The number by which the core knows it, and which no other object ever has. */
    final long id;
    /** Its wrapper; null until it is made. */
    PooledObject<T> pooled;
    /** The same if it is told when its object is lent and returned, and reads no clock for that; otherwise null. */
    TimedObject<T> timed;
    /** By which it is found; null until it is added. */
    Objects.Identity identity;
    /** Whether its wrapper is told of each loan whatever the settings are; and whether it is told of the loan that there is. */
    boolean isWrapperTold;
    boolean isLoanTold;
    /** When it said that it was last used, as it was lent or last asked; null if it was not asked. */
    volatile Instant reported;
    /** Who has borrowed it, if the pool looks for leaks. */
    volatile Lender lender;
    /** When it was made, by {@link System#nanoTime}. */
    long madeAt;
    /** Whether a call destroys it, or did. It is set by the one call that has it, or with the lock as it is reclaimed. */
    boolean isGone;
    /** The ones before it and after it, of those that have a place; or the next one of those that a call reclaimed. */
    Member<T> previous;
    Member<T> next;

    // The lock of the pool protects what follows.
    /** The call for its loans and its return, which needs no memory then. */
    Call<T> call;
    private long loans;
    private boolean isLent;
    /** When it was last lent and returned, by {@link System#nanoTime}. */
    private long lentAt;
    private long returnedAt;
    /** When it was last lent or used, by the same clock. */
    private long usedAt;

    Member(int slot, long id) {
        this.slot = slot;
        this.id = id;
    }

    boolean isLent() {
        return isLent;
    }

    void lend(long nanoTime) {
        loans++;
        isLent = true;
        lentAt = nanoTime;
        usedAt = nanoTime;
    }

    /** Returns which loan it is. The thread that has the object needs no lock. */
    long loanNumber() {
        return loans;
    }

    void giveBack(long nanoTime) {
        isLent = false;
        returnedAt = nanoTime;
    }

    /** Its loan is over, and it does not come back. */
    void end() {
        isLent = false;
    }

    /** Returns when it was last lent, by {@link System#nanoTime}. The thread that has the object needs no lock. */
    long lentAt() {
        return lentAt;
    }

    /** Returns for how many nanoseconds it was idle before its loan, since its return or since it was made. The same. */
    long idleNanos() {
        return Math.max(0, lentAt - (loans > 1 ? returnedAt : madeAt));
    }

    /** Returns how long its loan is that ends at this time of {@link System#nanoTime}, in nanoseconds. The same. */
    long loanNanos(long nanoTime) {
        return Math.max(0, nanoTime - lentAt);
    }

    void use(long nanoTime) {
        usedAt = nanoTime;
    }

    /** Returns whether it is lent, and was neither lent nor used since this time of {@link System#nanoTime}, as far as the core knows. */
    boolean isUsedBefore(long nanoTime) {
        return isLent && nanoTime - usedAt > 0;
    }

    /** Returns when it was last lent or used, by {@link System#nanoTime}, as far as the core knows. Without the lock it may be some other time. */
    long usedAt() {
        return usedAt;
    }

    /** Returns its loans until now. */
    Loans loans() {
        return new Loans(loans, isLent, lentAt, returnedAt);
    }
}
