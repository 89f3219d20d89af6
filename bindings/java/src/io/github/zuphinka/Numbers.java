package io.github.zuphinka;

/** The numbers of a pool, as its user asks for them, each of one moment. */
final class Numbers {
    private final LockedPool<?> lockedPool;
    private final StoredJournal journal;
    private final Measures measures;
    private final Wakes wakes;

    Numbers(LockedPool<?> lockedPool) {
        this.lockedPool = lockedPool;
        journal = lockedPool.journal;
        measures = lockedPool.measures;
        wakes = lockedPool.wakes;
    }

    /** Returns the counts of the core. */
    Counts counts() {
        return lockedPool.locked(journal::counts);
    }

    /** Returns whether an object still has this loan. */
    boolean isLent(Member<?> member, long loan) {
        return lockedPool.locked(() -> member.isLent() && member.loanNumber() == loan);
    }

    /** Returns the loans of an object. */
    Loans loansOf(Member<?> member) {
        return lockedPool.locked(member::loans);
    }

    /** Returns what the pool counts besides. */
    Usage usage() {
        return lockedPool.locked(() -> measures.usage(wakes.waiters.size()));
    }

    /** Returns the metrics of the pool, with this label. */
    Metrics metrics(String label) {
        return new Metrics(lockedPool.locked(() -> measures.snapshot(label, journal.counts(), wakes.waiters.size())));
    }

    /** Returns for how long, in milliseconds, a thread that waits may be overtaken without a limit. */
    long overtakeMillis() {
        return lockedPool.locked(wakes::overtakeMillis);
    }

    void setOvertakeMillis(long millis) {
        lockedPool.locked(() -> {
            wakes.limitOvertakes(millis, wakes.maxOvertakes());
            return null;
        });
    }

    /** Returns how often it may be after that. */
    int maxOvertakes() {
        return lockedPool.locked(wakes::maxOvertakes);
    }

    void setMaxOvertakes(int times) {
        lockedPool.locked(() -> {
            wakes.limitOvertakes(wakes.overtakeMillis(), times);
            return null;
        });
    }
}
