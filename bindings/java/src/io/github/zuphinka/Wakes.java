package io.github.zuphinka;

import java.nio.ByteBuffer;
import java.util.concurrent.locks.LockSupport;

/** Whom the sections of a pool wake, and for how long and how often those that wait may be overtaken. The caller holds the lock of the pool. */
final class Wakes {
    final Waiters waiters = new Waiters();
    private final long core;
    private final ByteBuffer details;
    private final boolean isFair;
    /** The thread that is to be unparked once the lock is free; null if there is none. */
    private Thread woken;
    /** For how long a waiter is overtaken without a limit. */
    private long overtakeMillis;
    /** How often it is to be after that, and the bound that the core has until the waiters who were overtaken more often have left. */
    private int maxOvertakes;
    private long overtakes;

    Wakes(long core, ByteBuffer details, boolean isFair) {
        this.core = core;
        this.details = details;
        this.isFair = isFair;
        limitOvertakes(isFair ? 0 : CoreSettings.DEFAULT_OVERTAKE_MILLIS, isFair ? 0 : CoreSettings.DEFAULT_OVERTAKES);
    }

    long overtakeMillis() {
        return overtakeMillis;
    }

    int maxOvertakes() {
        return maxOvertakes;
    }

    void limitOvertakes(long millis, int times) {
        overtakeMillis = millis;
        maxOvertakes = times;
        overtakes = Core.setOvertakes(core, millis, times);
    }

    boolean hasWoken() {
        return woken != null;
    }

    /** Returns the thread that is to be unparked, once. */
    Thread takeWoken() {
        Thread next = woken;
        woken = null;
        return next;
    }

    /** A call sleeps no more, if it did. Wakes the one whose turn has come by that, and asks for the bound on overtakes again, if it was too great. */
    void leave(Call<?> call) {
        unpark(waiters.remove(call));
        if (overtakes != maxOvertakes) {
            limitOvertakes(overtakeMillis, maxOvertakes);
        }
    }

    /** Wakes the calls that a reply names. */
    void wakeBy(long reply) {
        if (Core.hasWake(reply)) {
            wake(details.getLong(Core.WAKE));
            wakeMore();
        }
    }

    /** Wakes the calls that may find something now. */
    void wakeMore() {
        if (waiters.isEmpty()) {
            return;
        }
        for (long ticket = Core.nextWake(core); ticket >= 0; ticket = Core.nextWake(core)) {
            wake(ticket);
        }
    }

    /** Wakes a call, in a fair pool once those that were to be woken before it have gone on: so each has the object that came free for it. */
    private void wake(long ticket) {
        if (!isFair || waiters.queue(ticket)) {
            unpark(waiters.wake(ticket));
        }
    }

    private void unpark(Thread next) {
        if (next != null) {
            LockSupport.unpark(woken);
            woken = next;
        }
    }
}
