package io.github.zuphinka;

import java.lang.reflect.Field;
import java.util.ArrayList;
import java.util.List;
import java.util.Objects;

/** Looks at the waiters of a pool without threads: which call is woken, and which is not. */
public final class Queueing {
    private final List<String> faults = new ArrayList<>();
    private final Waiters waiters = new Waiters();

    private Queueing() {}

    /** Returns what is wrong. */
    public static List<String> faults() {
        Queueing queueing = new Queueing();
        queueing.theTicketIsWoken();
        queueing.aWakeIsForOneSleep();
        queueing.whoLeavesIsForgotten();
        queueing.aSleepEnds();
        queueing.turns();
        return queueing.faults;
    }

    /** Returns what is wrong on a full heap, where calls sleep already. */
    public static List<String> faultsOnFullHeap() {
        Queueing queueing = new Queueing();
        List<Call<Object>> first = queueing.asleep(1L << 40, 2);
        queueing.wakeInTurns(first.get(0), first.get(1)); // its classes are loaded then
        List<Call<Object>> calls = queueing.asleep(1L << 41, 2);
        OutOfMemoryError fault = null;
        fillHeap();
        try {
            queueing.wakeInTurns(calls.get(0), calls.get(1));
        } catch (OutOfMemoryError e) {
            fault = e;
        }
        emptyHeap();
        queueing.expect("wakes, sleeps and turns on a full heap", null, fault);
        queueing.expect("both were woken, and have left", "ww 0", woken(calls) + " " + queueing.waiters.size());
        return queueing.faults;
    }

    private void wakeInTurns(Call<Object> one, Call<Object> other) {
        waiters.queue(other.ticket.number);
        waiters.queue(one.ticket.number);
        waiters.wake(other.ticket.number);
        other.mayPause = true;
        Waiters.sleep(other, Long.MAX_VALUE);
        waiters.remove(other);
        waiters.remove(one);
    }

    /** One of those that fill the heap, which knows the next. It takes as little as any object. */
    private static class Filling {
        private final Filling next;

        Filling(Filling next) {
            this.next = next;
        }
    }

    /** One that takes more. */
    private static final class WideFilling extends Filling {
        private final byte[] bytes;

        WideFilling(Filling next, int size) {
            super(next);
            bytes = new byte[size];
        }
    }

    private static Filling filling;
    private static byte[] reserve;

    /** Fills the heap, so that nothing has memory in it. */
    public static void fillHeap() {
        reserve = new byte[48];
        for (int size = 1 << 20;; size /= 2) {
            try {
                for (;;) {
                    filling = size > 0 ? new WideFilling(filling, size) : new Filling(filling);
                }
            } catch (OutOfMemoryError e) {
                if (size == 0) {
                    return;
                }
            }
        }
    }

    /** Leaves memory for one more entry of a map in a full heap, and not for a greater map. */
    public static void freeEntry() {
        reserve = null;
    }

    public static void emptyHeap() {
        filling = null;
    }

    /** Takes the lock of a pool, and returns what frees it. */
    public static Runnable lock(ZuphinkaPool<?> pool) throws ReflectiveOperationException {
        Field lockedPool = ZuphinkaPool.class.getDeclaredField("lockedPool");
        lockedPool.setAccessible(true);
        Field lock = LockedPool.class.getDeclaredField("lock");
        lock.setAccessible(true);
        PoolLock taken = (PoolLock) lock.get(lockedPool.get(pool));
        taken.take();
        return taken::free;
    }

    private void expect(String name, Object wanted, Object got) {
        if (!Objects.equals(wanted, got)) {
            faults.add(name + ": wanted " + wanted + ", got " + got);
        }
    }

    /** Returns calls that sleep, with the tickets from a number on. */
    private List<Call<Object>> asleep(long first, int number) {
        List<Call<Object>> calls = new ArrayList<>();
        for (int position = 0; position < number; position++) {
            Call<Object> call = new Call<Object>().begin(Core.KIND_BORROW, 0, System.nanoTime(), null);
            call.ticket.number = first + position;
            waiters.add(call);
            calls.add(call);
        }
        return calls;
    }

    private static String woken(List<Call<Object>> calls) {
        StringBuilder text = new StringBuilder();
        for (Call<Object> call : calls) {
            text.append(call.isWoken ? 'w' : '-');
        }
        return text.toString();
    }

    private void theTicketIsWoken() {
        List<Call<Object>> calls = asleep(1L << 40, 3);
        expect("nobody is woken", "---", woken(calls));
        expect("its thread", Thread.currentThread(), waiters.wake((1L << 40) + 1));
        expect("the second is", "-w-", woken(calls));
        expect("their number", 3, waiters.size());
        calls.forEach(waiters::remove);
        expect("nobody is left", true, waiters.isEmpty());
    }

    private void aWakeIsForOneSleep() {
        List<Call<Object>> calls = asleep(0, 2);
        waiters.wake(0);
        waiters.add(calls.get(0));
        expect("one that sleeps on is to be woken again", "--", woken(calls));
        waiters.wake(0);
        expect("by its ticket", "w-", woken(calls));
        calls.forEach(waiters::remove);
    }

    private void whoLeavesIsForgotten() {
        List<Call<Object>> calls = asleep(5, 2);
        waiters.remove(calls.get(0));
        expect("no thread", null, waiters.wake(5));
        expect("nobody is woken", "--", woken(calls));
        expect("one is left", 1, waiters.size());
        waiters.remove(calls.get(1));
    }

    private void turns() {
        List<Call<Object>> calls = asleep(300, 4);
        expect("the first turn has come", "true false false", waiters.queue(300) + " " + waiters.queue(302) + " " + waiters.queue(301));
        expect("so it has", "true false", waiters.queue(300) + " " + waiters.queue(301));
        expect("one that does not sleep has none", false, waiters.queue(299));
        expect("one leaves before its turn", null, waiters.remove(calls.get(2)));
        expect("the first leaves", Thread.currentThread(), waiters.remove(calls.get(0)));
        expect("the next is woken", "-w--", woken(calls));
        expect("the last turn", false, waiters.queue(303));
        expect("it leaves", null, waiters.remove(calls.get(3)));
        expect("the one that is left leaves", null, waiters.remove(calls.get(1)));
        expect("no turn is left", "-w-- true", woken(calls) + " " + waiters.isEmpty());
        Call<Object> last = asleep(305, 1).get(0);
        expect("a turn comes again", true, waiters.queue(305));
        waiters.remove(last);
    }

    private void aSleepEnds() {
        Call<Object> call = asleep(7, 1).get(0);
        waiters.wake(7);
        Waiters.sleep(call, Long.MAX_VALUE);
        expect("one that is woken before it sleeps", true, call.isWoken);
        waiters.add(call);
        Waiters.sleep(call, 1_000_000);
        expect("its time is over", 0L, call.left(1_000_000));
        Thread.currentThread().interrupt();
        Waiters.sleep(call, Long.MAX_VALUE);
        expect("one that is interrupted stays so", true, Thread.interrupted());
        waiters.remove(call);
    }
}
