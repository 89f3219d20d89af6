import io.github.zuphinka.Journal;
import io.github.zuphinka.SegmentSink;
import io.github.zuphinka.ZuphinkaPool;
import java.io.IOException;
import java.nio.file.Path;
import java.time.Duration;
import java.util.ArrayList;
import java.util.Collections;
import java.util.List;
import java.util.Objects;
import java.util.concurrent.Callable;
import java.util.concurrent.FutureTask;
import java.util.concurrent.TimeUnit;

/** What a test program expects: it counts what was found, and prints what was not. */
abstract class Expectations {
    /** A call that takes longer hangs, and a thread that was woken and has nothing then was not woken. */
    static final long LONGEST_MILLIS = 20_000;

    private static int passed;
    private static int failed;

    /** A call without a result. */
    interface Act {
        void run() throws Exception;
    }

    static void expect(String name, Object wanted, Object got) {
        if (Objects.equals(wanted, got)) {
            passed++;
        } else {
            failed++;
            System.out.println(name + ": wanted " + wanted + ", got " + got);
        }
    }

    /** Prints the last line of a test program. */
    static void printCounts() {
        System.out.println(passed + " passed, " + failed + " failed");
    }

    /** Runs a call, and returns its result, or the name and the message of what it throws. */
    static Object result(Callable<?> call) {
        try {
            return call.call();
        } catch (Throwable e) {
            String cause = e.getCause() == null ? "" : " from " + e.getCause().getMessage();
            return e.getClass().getSimpleName() + ": " + withoutNumbers(e) + cause;
        }
    }

    /** Returns a message without the name and the numbers of a pool, and without those of a slow sink. */
    private static String withoutNumbers(Throwable thrown) {
        return String.valueOf(thrown.getMessage()).replaceFirst(": pool .*, maxTotal -?[0-9]+", "").replaceFirst(", and has been storing .* ms$", "");
    }

    /** Makes a call in another thread. */
    static FutureTask<Object> begun(Callable<?> call) {
        FutureTask<Object> task = new FutureTask<>(() -> result(call));
        Thread thread = new Thread(task);
        thread.setDaemon(true);
        thread.start();
        return task;
    }

    /** Returns what such a call returned, as {@link #result}. One that does not end is an exception. */
    static Object within(FutureTask<Object> task) {
        return result(() -> task.get(LONGEST_MILLIS, TimeUnit.MILLISECONDS));
    }

    static Object ending(Act act) {
        return result(() -> {
            act.run();
            return "done";
        });
    }

    static String counts(ZuphinkaPool<?> pool) {
        return pool.getNumIdle() + " idle, " + pool.getNumActive() + " active, " + pool.getCreatedCount() + " created, "
                + pool.getDestroyedCount() + " destroyed";
    }

    /** Returns a journal that is stored by calls of the pool alone, and by no thread of its own. */
    static Journal whenDue(SegmentSink sink) {
        return Journal.storedBy(sink).storeEvery(Duration.ZERO);
    }

    static Journal whenDue(Path folder) throws IOException {
        return Journal.inFolder(folder).storeEvery(Duration.ZERO);
    }

    /** Waits until something is so, or would hang. */
    static void until(Callable<Boolean> isSo) throws Exception {
        long begun = System.nanoTime();
        while (!isSo.call() && System.nanoTime() - begun < TimeUnit.MILLISECONDS.toNanos(LONGEST_MILLIS)) {
            Thread.sleep(1);
        }
    }

    /** Acts while threads wait for an object, and returns what they get, as {@link #result}. */
    static List<Object> whileWaiting(ZuphinkaPool<?> pool, int number, Callable<?> borrow, Act act) throws Exception {
        List<Object> got = Collections.synchronizedList(new ArrayList<>());
        List<Thread> waiters = new ArrayList<>();
        for (int started = 0; started < number; started++) {
            Thread waiter = new Thread(() -> got.add(result(borrow)));
            waiter.setDaemon(true);
            waiter.start();
            waiters.add(waiter);
        }
        while (pool.getNumWaiters() < number && waiters.stream().allMatch(Thread::isAlive)) {
            Thread.sleep(1);
        }
        act.run();
        for (Thread waiter : waiters) {
            waiter.join(LONGEST_MILLIS);
        }
        return List.copyOf(got);
    }
}
