package io.github.zuphinka;

import java.util.HashMap;
import java.util.Map;
import java.util.concurrent.locks.LockSupport;

/** The calls that sleep, by their tickets. Where nothing else is said, the caller holds the lock of the pool. Only {@link #add} needs memory. */
final class Waiters {
    private final Map<Ticket, Call<?>> asleep = new HashMap<>();
    /** The ticket by which a call is looked for. */
    private final Ticket sought = new Ticket();
    /** The calls that are woken in turns, which know their next ones: the first is woken, and each of the others once those before it sleep no more. */
    private Call<?> first;
    private Call<?> last;

    /** A ticket of the core. That of a call changes only while it does not sleep. */
    static final class Ticket {
        long number;

        @Override
        public boolean equals(Object other) {
            return other instanceof Ticket && ((Ticket) other).number == number;
        }

        @Override
        public int hashCode() {
            return Long.hashCode(number);
        }
    }

    int size() {
        return asleep.size();
    }

    boolean isEmpty() {
        return asleep.isEmpty();
    }

    /** A call of this thread sleeps from now on, or sleeps on. If there is no memory, it is to be removed. */
    void add(Call<?> call) {
        call.isWoken = false;
        call.thread = Thread.currentThread();
        asleep.put(call.ticket, call);
    }

    /** A call sleeps no more, if it did. Returns the thread whose turn has come, which is to be unparked; null if there is none. */
    Thread remove(Call<?> call) {
        asleep.remove(call.ticket, call);
        boolean wasFirst = first == call;
        leaveTurns(call);
        return wasFirst && first != null ? wake(first) : null;
    }

    private void leaveTurns(Call<?> call) {
        Call<?> before = null;
        Call<?> found = first;
        while (found != null && found != call) {
            before = found;
            found = found.nextTurn;
        }
        if (found == null) {
            return;
        }
        if (before == null) {
            first = call.nextTurn;
        } else {
            before.nextTurn = call.nextTurn;
        }
        last = last == call ? before : last;
        call.nextTurn = null;
    }

    /** A call is to be woken in its turn. Returns whether that has come. */
    boolean queue(long ticket) {
        Call<?> call = find(ticket);
        if (call != null && call != last && call.nextTurn == null) {
            if (last == null) {
                first = call;
            } else {
                last.nextTurn = call;
            }
            last = call;
        }
        return call != null && call == first;
    }

    private Call<?> find(long ticket) {
        sought.number = ticket;
        return asleep.get(sought);
    }

    /** Wakes a call, and returns its thread, which is to be unparked; null if it does not sleep. */
    Thread wake(long ticket) {
        Call<?> call = find(ticket);
        return call == null ? null : wake(call);
    }

    private static Thread wake(Call<?> call) {
        call.isWoken = true;
        return call.thread;
    }

    /** Sleeps without the lock until a call is woken, its thread is interrupted, or it is this old in nanoseconds. Before that it may pause. */
    static void sleep(Call<?> call, long nanos) {
        if (call.mayPause) {
            Pauses.pauseWhile(call.isAsleep, call.left(nanos));
        }
        for (long left = call.left(nanos); !call.isWoken && left > 0; left = call.left(nanos)) {
            if (Thread.currentThread().isInterrupted()) {
                return;
            }
            LockSupport.parkNanos(call, left);
        }
    }
}
