import io.github.zuphinka.Journal;
import io.github.zuphinka.Queueing;
import io.github.zuphinka.Segment;
import io.github.zuphinka.SegmentSink;
import io.github.zuphinka.ZuphinkaPool;
import java.io.IOException;
import java.lang.ref.WeakReference;
import java.nio.charset.StandardCharsets;
import java.time.Duration;
import java.util.ArrayList;
import java.util.Collections;
import java.util.List;
import java.util.concurrent.CountDownLatch;
import java.util.concurrent.FutureTask;
import java.util.concurrent.Semaphore;
import java.util.concurrent.TimeUnit;
import java.util.concurrent.atomic.AtomicBoolean;
import java.util.concurrent.atomic.AtomicInteger;
import java.util.concurrent.locks.LockSupport;
import org.apache.commons.pool2.PooledObject;
import org.apache.commons.pool2.impl.AbandonedConfig;
import org.apache.commons.pool2.impl.DefaultPooledObject;
import org.apache.commons.pool2.impl.GenericObjectPoolConfig;

/**
 * Threads that wait for an object: which one is woken, and in what order they are served. {@code Waits heap} fills the heap of the virtual machine while
 * one waits.
 */
public final class Waits extends Expectations {
    /** How often a thread waits beside one that borrows again at once. */
    private static final int ROUNDS = 50;
    /** How often such a thread tries to be faster than one that was woken. */
    private static final int TRIES = 200;
    /** How often the heap is filled beside threads that call a pool. */
    private static final int FILLS = 10;
    /** How long another thread has to find the lock held. */
    private static final long PATIENCE_MILLIS = 100;

    /** What a borrow throws if the segments that wait for a slow sink take too much memory. */
    private static final String SLOW = "IllegalStateException: Journal full: its sink is slow";

    private Waits() {}

    private static ZuphinkaPool<Object> pool(int maxTotal, Journal journal) {
        return pool(new Plain(), maxTotal, journal);
    }

    private static ZuphinkaPool<Object> pool(Plain factory, int maxTotal, Journal journal) {
        GenericObjectPoolConfig<Object> config = new GenericObjectPoolConfig<>();
        config.setJmxEnabled(false);
        config.setMaxTotal(maxTotal);
        return new ZuphinkaPool<>(factory, config, null, journal);
    }

    /** A thread that is woken and finds no room in the journal wakes the next one. */
    private static void fullJournal() throws Exception {
        ZuphinkaPool<Object> pool = pool(1, Journal.kept().limit(100));
        Object lent = pool.borrowObject();
        List<Object> got = whileWaiting(pool, 3, pool::borrowObject, () -> {
            while (ending(pool::addObject).equals("done")) {
                // One more entry, since no place is free.
            }
            pool.returnObject(lent);
        });
        String full = "IllegalStateException: Journal full";
        expect("threads that find a full journal", List.of(full, full, full), got);
        pool.cut();
        expect("a borrow after a cut", lent, result(pool::borrowObject));
    }

    /** A sink that is slow: it stores nothing until it is told to. */
    private static final class SlowSink implements SegmentSink {
        private final CountDownLatch entered = new CountDownLatch(1);
        private final Semaphore told = new Semaphore(0);

        @Override
        public void store(Segment segment) {
            entered.countDown();
            told.acquireUninterruptibly();
            told.release();
        }
    }

    private static Object loans(ZuphinkaPool<Object> pool, int number) {
        return ending(() -> {
            for (int loan = 0; loan < number; loan++) {
                pool.returnObject(pool.borrowObject());
            }
        });
    }

    /** Borrows and returns until the journal is full, and returns how that ended. */
    private static Object untilFull(ZuphinkaPool<Object> pool) {
        Object ending;
        do {
            ending = ending(() -> pool.returnObject(pool.borrowObject(1)));
        } while (ending.equals("done"));
        return ending;
    }

    /** Waits until a thread sleeps, or is over, that says in an array which it is. */
    private static void untilAsleep(Thread[] thread) throws InterruptedException {
        while (thread[0] == null || thread[0].getState() == Thread.State.RUNNABLE) {
            Thread.sleep(1);
        }
    }

    /** While a thread stores a segment the others lend as long as there is room. Then they wait for it as long as for an object. */
    private static void slowSink() throws Exception {
        AbandonedConfig abandoned = new AbandonedConfig();
        abandoned.setRemoveAbandonedOnBorrow(true);
        abandoned.setRemoveAbandonedTimeout(Duration.ofHours(1));
        for (AbandonedConfig some : new AbandonedConfig[] {null, abandoned}) {
            SlowSink sink = new SlowSink();
            GenericObjectPoolConfig<Object> config = new GenericObjectPoolConfig<>();
            config.setJmxEnabled(false);
            ZuphinkaPool<Object> pool = new ZuphinkaPool<>(new Plain(), config, some, whenDue(sink).limit(100));
            FutureTask<Object> storing = begun(() -> loans(pool, 20));
            sink.entered.await();
            expect("loans beside a store", "done", within(begun(() -> loans(pool, 5))));
            String full = SLOW;
            expect("a borrow that waits for a millisecond", full, within(begun(() -> untilFull(pool))));
            expect("a borrow that does not wait", full, within(begun(() -> pool.borrowObject(0))));
            FutureTask<Object> waiting = begun(() -> loans(pool, 5));
            Thread[] interrupted = new Thread[1];
            FutureTask<Object> ending = begun(() -> {
                interrupted[0] = Thread.currentThread();
                return pool.borrowObject();
            });
            untilAsleep(interrupted);
            expect("the pool beside them", 0, within(begun(pool::getNumWaiters)));
            interrupted[0].interrupt();
            expect("a borrow that is interrupted", "InterruptedException: null", within(ending));
            Thread[] patient = new Thread[1];
            FutureTask<Object> adding = begun(() -> {
                Thread.currentThread().interrupt();
                patient[0] = Thread.currentThread();
                pool.addObject();
                return Thread.interrupted();
            });
            untilAsleep(patient);
            sink.told.release();
            expect("an addition that is interrupted", true, within(adding));
            expect("loans after the store", List.of("done", "done"), List.of(within(storing), within(waiting)));
            pool.close();
        }
    }

    /** A store that lasts longer than a borrow may wait keeps no borrow from its object: the segments after it wait in memory. */
    private static void healthySink() throws Exception {
        SlowSink sink = new SlowSink();
        List<Long> stored = new ArrayList<>();
        ZuphinkaPool<Object> pool = pool(1, whenDue(segment -> {
            sink.store(segment);
            stored.add(segment.entries());
        }).limit(100));
        pool.setMaxWait(Duration.ofMillis(1));
        FutureTask<Object> storing = begun(() -> loans(pool, 20));
        sink.entered.await();
        expect("loans beside a store, of many times the room", "done", within(begun(() -> loans(pool, 2_000))));
        sink.told.release();
        expect("the thread that stores", "done", within(storing));
        pool.close();
        expect("no entry is lost", pool.getCounts().steps(), stored.stream().mapToLong(Long::longValue).sum());
    }

    /** A borrow that may not wait for an object waits for no thread that stores a segment. */
    private static void noWaitBesideAStore() throws Exception {
        SlowSink sink = new SlowSink();
        GenericObjectPoolConfig<Object> config = new GenericObjectPoolConfig<>();
        config.setJmxEnabled(false);
        config.setBlockWhenExhausted(false);
        ZuphinkaPool<Object> pool = new ZuphinkaPool<>(new Plain(), config, null, whenDue(sink).limit(100));
        FutureTask<Object> storing = begun(() -> loans(pool, 20));
        sink.entered.await();
        String full = SLOW;
        expect("a journal without room", full, within(begun(() -> untilFull(pool))));
        expect("a borrow that may not wait", full, within(begun(pool::borrowObject)));
        expect("one with a limit", full, within(begun(() -> pool.borrowObject(Duration.ofDays(1)))));
        sink.told.release();
        expect("the thread that stored it", "done", within(storing));
        pool.close();
    }

    /** A close ends the calls that wait for room while another thread stores a segment. */
    private static void closeBesideAStore() throws Exception {
        List<Act> acts = new ArrayList<>();
        SlowSink sink = new SlowSink();
        GenericObjectPoolConfig<Object> config = new GenericObjectPoolConfig<>();
        config.setJmxEnabled(false);
        config.setMinIdle(8);
        ZuphinkaPool<Object> pool = new ZuphinkaPool<>(new Plain(), config, null, whenDue(sink).limit(100));
        acts.add(() -> {
            for (;;) {
                pool.evict();
            }
        });
        acts.add(pool::borrowObject);
        acts.add(() -> pool.borrowObject(Duration.ofDays(1)));
        acts.add(pool::addObject);
        acts.add(() -> {
            while (!pool.isClosed()) {
                pool.preparePool();
            }
        });
        FutureTask<Object> storing = begun(() -> loans(pool, 20));
        sink.entered.await();
        expect("a journal without room", SLOW, within(begun(() -> untilFull(pool))));
        List<FutureTask<Object>> waiting = new ArrayList<>();
        for (Act act : acts) {
            Thread[] thread = new Thread[1];
            waiting.add(begun(() -> {
                thread[0] = Thread.currentThread();
                return ending(act);
            }));
            untilAsleep(thread);
        }
        FutureTask<Object> closing = begun(() -> ending(pool::close));
        List<Object> ended = new ArrayList<>();
        for (FutureTask<Object> call : waiting) {
            ended.add(within(call));
        }
        String closed = "IllegalStateException: Pool not open";
        expect("calls that a close ends beside a store", List.of(closed, closed, closed, closed, "done"), ended);
        sink.told.release();
        expect("the thread that stored it, and the close", List.of(closed, "done"), List.of(within(storing), within(closing)));
    }

    /** A borrow that waits for room while another thread stores a segment goes on once the journal is cut, here by changed settings. */
    private static void cutBesideAStore() throws Exception {
        SlowSink sink = new SlowSink();
        ZuphinkaPool<Object> pool = pool(8, whenDue(sink).limit(100));
        FutureTask<Object> storing = begun(() -> loans(pool, 20));
        sink.entered.await();
        expect("a journal without room", SLOW, within(begun(() -> untilFull(pool))));
        Thread[] thread = new Thread[1];
        FutureTask<Object> waiting = begun(() -> {
            thread[0] = Thread.currentThread();
            return loans(pool, 1);
        });
        untilAsleep(thread);
        FutureTask<Object> changing = begun(() -> ending(() -> pool.setMaxTotal(9)));
        expect("a borrow that waits for room, once the journal is cut", "done", within(waiting));
        sink.told.release();
        expect("the thread that stores, and the change", List.of("done", "done"), List.of(within(storing), within(changing)));
        pool.close();
    }

    /** No object is lent while its borrow stores a segment: while one is stored, another thread takes abandoned objects from their holders. */
    private static void loanBesideAStore(Plain factory) throws Exception {
        AbandonedConfig abandoned = new AbandonedConfig();
        abandoned.setRemoveAbandonedOnMaintenance(true);
        abandoned.setRemoveAbandonedTimeout(Duration.ofMillis(20));
        GenericObjectPoolConfig<Object> config = new GenericObjectPoolConfig<>();
        config.setJmxEnabled(false);
        List<ZuphinkaPool<Object>> pools = new ArrayList<>();
        AtomicInteger stores = new AtomicInteger();
        Journal journal = whenDue(segment -> {
            stores.incrementAndGet();
            within(begun(() -> {
                Thread.sleep(60);
                pools.get(0).evict();
                return "done";
            }));
        });
        // So a segment is due after each step of a loan in turn.
        for (int limit = 100; limit < 108; limit += 2) {
            pools.clear();
            pools.add(new ZuphinkaPool<>(factory, config, abandoned, journal.limit(limit)));
            expect("loans with segments", "done", loans(pools.get(0), 20));
            expect("no object is taken from its holder", "1 idle, 0 active, 1 created, 0 destroyed", counts(pools.get(0)));
            pools.get(0).close();
        }
        expect("segments are stored beside loans", true, stores.get() >= 8);
    }

    /** A sink runs without the lock of the pool, also if a borrow calls it that finds no room. */
    private static void sinkBesideThePool() throws Exception {
        AtomicBoolean isBroken = new AtomicBoolean(true);
        List<ZuphinkaPool<?>> pools = new ArrayList<>();
        List<Object> seen = new ArrayList<>();
        ZuphinkaPool<Object> pool = pool(1, whenDue(segment -> {
            if (isBroken.get()) {
                throw new IOException("sink");
            }
            seen.add(within(begun(pools.get(0)::getNumIdle)));
        }).limit(100));
        pools.add(pool);
        expect("a journal without room", "IllegalStateException: Journal full from sink", untilFull(pool));
        isBroken.set(false);
        expect("a borrow that stores it", "done", loans(pool, 1));
        expect("the pool during the store", List.of(1), seen.subList(0, 1));
        pool.close();
    }

    /** A sink that fails is tried again each time that half of the room that was left is used up, and at each borrow once there is none. */
    private static void failingSink() throws Exception {
        AtomicInteger tries = new AtomicInteger();
        boolean[] isBroken = {true};
        ZuphinkaPool<Object> pool = pool(1, whenDue(segment -> {
            tries.incrementAndGet();
            if (isBroken[0]) {
                throw new IOException("sink");
            }
        }).limit(10_000));
        expect("many loans over a sink that fails", "done", loans(pool, 3_000));
        expect("its tries", 2, tries.get());
        pool.maintain();
        expect("a maintenance tries it again", 3, tries.get());
        expect("a full journal", "IllegalStateException: Journal full from sink", untilFull(pool));
        int before = tries.get();
        expect("a borrow after it", "IllegalStateException: Journal full from sink", result(pool::borrowObject));
        expect("it tries the sink", before + 1, tries.get());
        isBroken[0] = false;
        expect("once the sink is repaired", "done", loans(pool, 1));
        pool.close();
    }

    /** Returns how often at most a thread got an object between the wait and the loan of another one. */
    private static int mostOvertakes(ZuphinkaPool<Object> pool, long other) {
        String name = Long.toString(other);
        String[] lines = new String(pool.getJournal().text(), StandardCharsets.US_ASCII).split("\n");
        int overtakes = 0;
        int most = 0;
        boolean isWaiting = false;
        for (String line : lines) {
            List<String> words = List.of(line.split(" "));
            boolean gets = words.contains("take") || words.contains("make");
            if (words.get(0).equals(name) && words.contains("borrow")) {
                isWaiting = words.contains("wait");
                most = Math.max(most, overtakes);
                overtakes = 0;
            } else if (gets && isWaiting) {
                overtakes++;
            }
        }
        return most;
    }

    /** One thread borrows again as soon as it has returned, and another one borrows between. Returns how often that one is overtaken at most. */
    private static int overtakesOf(ZuphinkaPool<Object> pool) throws Exception {
        AtomicBoolean isOver = new AtomicBoolean();
        long[] id = new long[1];
        FutureTask<Object> waiting = begun(() -> {
            id[0] = ZuphinkaPool.callerNumber();
            for (int round = 0; round < ROUNDS; round++) {
                pool.returnObject(pool.borrowObject());
                Thread.sleep(1);
            }
            isOver.set(true);
            return "served";
        });
        while (!isOver.get() && !waiting.isDone()) {
            pool.returnObject(pool.borrowObject());
        }
        expect("the thread that waits", "served", within(waiting));
        return mostOvertakes(pool, id[0]);
    }

    private static void overtaking() throws Exception {
        GenericObjectPoolConfig<Object> config = new GenericObjectPoolConfig<>();
        config.setJmxEnabled(false);
        config.setMaxTotal(1);
        for (int most : new int[] {64, 3, 0}) {
            config.setFairness(most == 0);
            ZuphinkaPool<Object> pool = new ZuphinkaPool<>(new Plain(), config, null, Journal.kept().limit(50_000_000));
            if (most == 3) {
                pool.setMaxOvertakes(most);
            }
            expect("the time of overtakes", Duration.ofMillis(most == 0 ? 0 : 5), pool.getOvertakeTime());
            expect("the number of overtakes", most, pool.getMaxOvertakes());
            expect("the fairness", most == 0, pool.getFairness());
            pool.setOvertakeTime(Duration.ZERO);
            int overtakes = overtakesOf(pool);
            expect("overtaken " + overtakes + " times, " + most + " at most", true, overtakes <= most);
            expect("a negative number", "IllegalArgumentException: maxOvertakes: -1 is negative", ending(() -> pool.setMaxOvertakes(-1)));
            pool.close();
        }
    }

    /** Sets a time while a thread waits, and returns whether a borrow that does not wait takes then the object that is returned. */
    private static boolean overtakes(ZuphinkaPool<Object> pool, Duration time) throws Exception {
        CountDownLatch tried = new CountDownLatch(1);
        Object[] ending = {null};
        Object lent = pool.borrowObject();
        whileWaiting(pool, 1, () -> {
            Object object = pool.borrowObject();
            tried.await();
            pool.returnObject(object);
            return object;
        }, () -> {
            pool.setOvertakeTime(time);
            pool.returnObject(lent);
            ending[0] = ending(() -> pool.returnObject(pool.borrowObject(0)));
            tried.countDown();
        });
        return ending[0].equals("done");
    }

    /** A thread is overtaken until it has waited for the time that is set, also if none may overtake it after that. */
    private static void overtakingForATime() throws Exception {
        ZuphinkaPool<Object> pool = pool(1, Journal.dropped());
        pool.setMaxOvertakes(0);
        expect("the fairness within a time", false, pool.getFairness());
        for (Duration time : new Duration[] {Duration.ofHours(1), Duration.ZERO, Duration.ofDays(36_500_000)}) {
            boolean isOvertaken = false;
            for (int tried = 0; tried < TRIES && !isOvertaken; tried++) {
                isOvertaken = overtakes(pool, time);
            }
            expect("overtaken within " + time, !time.isZero(), isOvertaken);
            expect("the time of overtakes", time, pool.getOvertakeTime());
        }
        pool.setOvertakeTime(Duration.ofNanos(1_000_001));
        expect("a time that is rounded up", Duration.ofMillis(2), pool.getOvertakeTime());
        String negative = "IllegalArgumentException: overtakeTime: PT-1S is negative";
        expect("a negative time", negative, ending(() -> pool.setOvertakeTime(Duration.ofSeconds(-1))));
        pool.close();
    }

    /** Threads of a fair pool that come one after the other are served in that order. */
    private static void arrival() throws Exception {
        GenericObjectPoolConfig<Object> config = new GenericObjectPoolConfig<>();
        config.setJmxEnabled(false);
        config.setMaxTotal(1);
        config.setFairness(true);
        ZuphinkaPool<Object> pool = new ZuphinkaPool<>(new Plain(), config);
        Object lent = pool.borrowObject();
        List<Object> order = Collections.synchronizedList(new ArrayList<>());
        List<FutureTask<Object>> waiting = new ArrayList<>();
        for (int number = 0; number < 6; number++) {
            int own = number;
            waiting.add(begun(() -> {
                Object object = pool.borrowObject();
                order.add(own);
                pool.returnObject(object);
                return own;
            }));
            while (pool.getNumWaiters() <= number) {
                Thread.sleep(1);
            }
        }
        pool.returnObject(lent);
        for (FutureTask<Object> task : waiting) {
            within(task);
        }
        expect("in the order of arrival", List.of(0, 1, 2, 3, 4, 5), List.copyOf(order));
        pool.close();
    }

    /** Returns a thread that has waited for an object, got it, returned it and ended. */
    private static WeakReference<Thread> endedWaiter(ZuphinkaPool<Object> pool) throws Exception {
        Object lent = pool.borrowObject();
        Thread waiter = new Thread(() -> ending(() -> pool.returnObject(pool.borrowObject())));
        waiter.start();
        until(() -> pool.getNumWaiters() == 1);
        pool.returnObject(lent);
        waiter.join();
        return new WeakReference<>(waiter);
    }

    /** A pool that keeps a call for the next one keeps no thread. */
    private static void endedThread() throws Exception {
        ZuphinkaPool<Object> pool = pool(1, Journal.dropped());
        WeakReference<Thread> ended = endedWaiter(pool);
        until(() -> {
            System.gc();
            return ended.get() == null;
        });
        expect("a thread that has ended", null, ended.get());
        pool.close();
    }

    /** A thread that borrows, and is stopped by an error where it is asked whether it is interrupted. */
    private static final class Stopped extends Thread {
        private final ZuphinkaPool<Object> pool;
        private volatile boolean isStopped;
        private volatile Object got;

        Stopped(ZuphinkaPool<Object> pool) {
            this.pool = pool;
            setDaemon(true);
        }

        @Override
        public void run() {
            got = result(pool::borrowObject);
        }

        @Override
        public boolean isInterrupted() {
            if (isStopped) {
                throw new Error("stopped");
            }
            return super.isInterrupted();
        }

        void end() throws InterruptedException {
            isStopped = true;
            LockSupport.unpark(this);
            join(LONGEST_MILLIS);
        }
    }

    /** A thread that an error stops while it waits leaves nothing behind: more loans follow than may overtake it. */
    private static void stoppedThread() throws Exception {
        ZuphinkaPool<Object> pool = pool(1, Journal.dropped());
        Object lent = pool.borrowObject();
        Stopped waiter = new Stopped(pool);
        waiter.start();
        until(() -> pool.getNumWaiters() == 1);
        waiter.end();
        expect("a thread that is stopped", "Error: stopped", waiter.got);
        expect("nobody waits for it", 0, pool.getNumWaiters());
        pool.returnObject(lent);
        expect("loans after it", "done", ending(() -> {
            for (int loan = 0; loan <= pool.getMaxOvertakes(); loan++) {
                pool.returnObject(pool.borrowObject(0));
            }
        }));
        pool.close();
    }

    /** A thread that waits, and whose interrupt finds a full heap, leaves nothing behind. */
    private static void fullHeap() throws Exception {
        expect("the queue", List.of(), Queueing.faultsOnFullHeap());
        ZuphinkaPool<Object> pool = pool(1, Journal.dropped());
        Object lent = pool.borrowObject();
        Throwable[] thrown = {null};
        Thread waiter = new Thread(() -> {
            try {
                pool.borrowObject();
            } catch (Throwable e) {
                thrown[0] = e;
            }
        });
        waiter.setDaemon(true);
        waiter.start();
        until(() -> pool.getNumWaiters() == 1 && waiter.getState() == Thread.State.TIMED_WAITING);
        Queueing.fillHeap();
        waiter.interrupt();
        waiter.join(LONGEST_MILLIS);
        Queueing.emptyHeap();
        expect("what it throws", OutOfMemoryError.class, thrown[0] == null ? null : thrown[0].getClass());
        expect("nobody waits", 0, pool.getNumWaiters());
        pool.returnObject(lent);
        expect("a borrow after it", lent, result(() -> pool.borrowObject(0)));
        pool.close();
    }

    /** A borrow that finds no memory to wait beside so many others that their map has to grow leaves nothing behind. */
    private static void fullHeapBesideOthers() throws Exception {
        ZuphinkaPool<Object> pool = pool(1, Journal.dropped());
        pool.borrowObject();
        Duration longest = Duration.ofMillis(LONGEST_MILLIS);
        int others = 12;
        List<Object> got = whileWaiting(pool, others, pool::borrowObject, () -> {
            pool.clear(); // the next call needs no memory to begin
            Throwable thrown = null;
            Queueing.fillHeap();
            Queueing.freeEntry();
            try {
                pool.borrowObject(longest);
            } catch (Throwable e) {
                thrown = e;
            }
            Queueing.emptyHeap();
            expect("a borrow beside others", OutOfMemoryError.class, thrown == null ? null : thrown.getClass());
            expect("they alone wait", others, pool.getNumWaiters());
            pool.close();
        });
        expect("they wait until the close", Collections.nCopies(others, "IllegalStateException: Pool not open from The pool was closed"), got);
    }

    /** Passivates an object until it is told to end. The wrapper needs no memory for a return. */
    private static final class Passivating extends Plain {
        private final AtomicBoolean isBegun = new AtomicBoolean();
        private final AtomicBoolean mayEnd = new AtomicBoolean(true);

        @Override
        public PooledObject<Object> wrap(Object object) {
            return new DefaultPooledObject<>(object) {
                @Override
                public boolean deallocate() {
                    return true;
                }
            };
        }

        @Override
        public void passivateObject(PooledObject<Object> pooled) {
            isBegun.set(true);
            while (!mayEnd.get()) {
                Thread.onSpinWait();
            }
        }
    }

    /** A return that finds the lock held, and a full heap, once its object is passivated, ends all the same. */
    private static void heldLockOnFullHeap() throws Exception {
        Passivating factory = new Passivating();
        ZuphinkaPool<Object> pool = pool(factory, 1, Journal.dropped());
        pool.returnObject(pool.borrowObject()); // links the native methods
        Object lent = pool.borrowObject();
        factory.isBegun.set(false);
        factory.mayEnd.set(false);
        Throwable[] thrown = {null};
        Thread returner = new Thread(() -> {
            try {
                pool.returnObject(lent);
            } catch (Throwable e) {
                thrown[0] = e;
            }
        });
        returner.setDaemon(true);
        returner.start();
        until(factory.isBegun::get);
        Runnable unlock = Queueing.lock(pool);
        Queueing.fillHeap();
        factory.mayEnd.set(true);
        returner.join(PATIENCE_MILLIS);
        boolean waits = returner.isAlive();
        unlock.run();
        returner.join(LONGEST_MILLIS);
        Queueing.emptyHeap();
        expect("a return that finds the lock held", null, thrown[0]);
        expect("it waits for the lock", true, waits);
        expect("the pool after it", "1 idle, 0 active, 1 created, 0 destroyed", counts(pool));
        pool.close();
    }

    /** Makes objects that are activated, tested and passivated. */
    private static final class Hooked extends Plain {
        @Override
        public void activateObject(PooledObject<Object> pooled) {}

        @Override
        public void passivateObject(PooledObject<Object> pooled) {}
    }

    /** Borrows and returns until it is told to end, and tries again what has no memory. It needs none itself. */
    private static final class Trier extends Thread {
        private final ZuphinkaPool<Object> pool;
        volatile int tries;
        volatile boolean isOver;

        Trier(ZuphinkaPool<Object> pool) {
            this.pool = pool;
            setDaemon(true);
        }

        @Override
        public void run() {
            Object lent = null;
            while (!isOver || lent != null) {
                lent = afterTry(lent);
                tries++;
            }
        }

        /** Borrows, or returns a lent object. Returns the object that is lent then. */
        private Object afterTry(Object lent) {
            try {
                if (lent == null) {
                    return pool.borrowObject();
                }
                pool.returnObject(lent);
                return null;
            } catch (IllegalStateException e) {
                return null; // a try before has destroyed the object
            } catch (Exception | OutOfMemoryError e) {
                return lent;
            }
        }

        /** Waits until it has tried some times more, or hangs. */
        void await(int more) {
            int wanted = tries + more;
            long begun = System.nanoTime();
            while (tries - wanted < 0 && System.nanoTime() - begun < TimeUnit.MILLISECONDS.toNanos(LONGEST_MILLIS)) {
                Thread.onSpinWait();
            }
        }
    }

    /** Threads that call a pool while the heap is full now and again lose no object, and leave nothing behind. */
    private static void threadsOnFullHeap(Plain factory) throws Exception {
        GenericObjectPoolConfig<Object> config = new GenericObjectPoolConfig<>();
        config.setJmxEnabled(false);
        config.setMaxTotal(3);
        config.setMaxWait(Duration.ofMillis(10));
        ZuphinkaPool<Object> pool = new ZuphinkaPool<>(factory, config);
        List<Trier> triers = List.of(new Trier(pool), new Trier(pool), new Trier(pool), new Trier(pool));
        triers.forEach(Thread::start);
        for (int round = 0; round < FILLS; round++) {
            triers.get(0).await(10);
            Queueing.fillHeap();
            Queueing.emptyHeap();
        }
        for (Trier trier : triers) {
            trier.isOver = true;
        }
        for (Trier trier : triers) {
            trier.join(LONGEST_MILLIS);
        }
        int others = pool.listAllObjects().size() - pool.getNumIdle();
        expect("lent, waiting and not forgotten after full heaps", List.of(0, 0, 0), List.of(pool.getNumActive(), pool.getNumWaiters(), others));
        pool.close();
    }

    /** Makes an object once it is told to, if it is slow, and wrappers that fill the heap at a loan, if they are to fail. */
    private static final class Greedy extends Plain {
        private static final OutOfMemoryError ERROR = new OutOfMemoryError("wrapper");
        private final CountDownLatch mayGoOn = new CountDownLatch(1);
        private volatile boolean isSlow;
        private volatile boolean isFailing;

        @Override
        public Object create() {
            result(() -> !isSlow || mayGoOn.await(LONGEST_MILLIS, TimeUnit.MILLISECONDS));
            return super.create();
        }

        @Override
        public PooledObject<Object> wrap(Object object) {
            return new DefaultPooledObject<>(object) {
                @Override
                public boolean allocate() {
                    if (isFailing) {
                        isFailing = false;
                        Queueing.fillHeap();
                        throw ERROR;
                    }
                    return super.allocate();
                }
            };
        }
    }

    /** A loan whose wrapper fails on a full heap costs no object, also if the pool keeps no call for the next one. */
    private static void wrapperOnFullHeap() throws Exception {
        Greedy factory = new Greedy();
        GenericObjectPoolConfig<Object> config = new GenericObjectPoolConfig<>();
        config.setJmxEnabled(false);
        ZuphinkaPool<Object> pool = new ZuphinkaPool<>(factory, config);
        pool.addObject();
        factory.isSlow = true;
        FutureTask<Object> adding = begun(() -> ending(pool::addObject));
        until(() -> pool.getNumActive() == 1);
        factory.isFailing = true;
        Throwable thrown = null;
        try {
            pool.borrowObject();
        } catch (OutOfMemoryError e) {
            thrown = e;
        }
        Queueing.emptyHeap();
        factory.mayGoOn.countDown();
        expect("a wrapper on a full heap", OutOfMemoryError.class, thrown == null ? null : thrown.getClass());
        expect("an addition beside it", "done", within(adding));
        expect("after both", "2 idle, 0 active, 2 created, 0 destroyed", counts(pool));
        Object lent = pool.borrowObject();
        Object other = pool.borrowObject();
        pool.returnObject(lent);
        pool.returnObject(other);
        expect("after two loans", "2 idle, 0 active, 2 created, 0 destroyed", counts(pool));
        pool.close();
    }

    /** A loan that there is no memory to note, where leaks are looked for, is a loan all the same. */
    private static void leaksOnFullHeap() throws Exception {
        ZuphinkaPool<Object> pool = pool(1, Journal.dropped());
        pool.setLeakDetectionThreshold(Duration.ofHours(1));
        Object made = pool.borrowObject();
        pool.returnObject(made);
        Object lent = null;
        Queueing.fillHeap();
        try {
            lent = pool.borrowObject();
        } catch (Exception | OutOfMemoryError e) {
            // Nothing is lent.
        }
        Queueing.emptyHeap();
        expect("a loan on a full heap", made, lent);
        pool.returnObject(made);
        expect("after it", "1 idle, 0 active, 1 created, 0 destroyed", counts(pool));
        pool.close();
    }

    /** An eviction run on a heap that is full since a policy was first asked costs no place. */
    private static void policyOnFullHeap(Plain factory) throws Exception {
        AtomicBoolean isToFill = new AtomicBoolean();
        GenericObjectPoolConfig<Object> config = new GenericObjectPoolConfig<>();
        config.setJmxEnabled(false);
        config.setNumTestsPerEvictionRun(config.getMaxTotal());
        config.setEvictionPolicy((settings, pooled, idle) -> {
            if (isToFill.getAndSet(false)) {
                Queueing.fillHeap();
            }
            return false;
        });
        ZuphinkaPool<Object> pool = new ZuphinkaPool<>(factory, config);
        for (int made = 0; made < config.getMaxTotal(); made++) {
            pool.addObject();
        }
        pool.evict(); // its classes are loaded then
        isToFill.set(true);
        Throwable thrown = null;
        try {
            pool.evict();
        } catch (OutOfMemoryError e) {
            thrown = e;
        }
        Queueing.emptyHeap();
        expect("a run on a full heap", null, thrown);
        expect("its heap was filled", false, isToFill.get());
        expect("after it", "8 idle, 0 active, 8 created, 0 destroyed", counts(pool));
        pool.close();
    }

    public static void main(String[] words) throws Exception {
        if (words.length > 0) {
            heldLockOnFullHeap();
            fullHeap();
            fullHeapBesideOthers();
            threadsOnFullHeap(new Plain());
            threadsOnFullHeap(new Hooked());
            wrapperOnFullHeap();
            leaksOnFullHeap();
            policyOnFullHeap(new Plain());
            policyOnFullHeap(new Hooked());
            printCounts();
            return;
        }
        expect("the queue", List.of(), Queueing.faults());
        overtaking();
        overtakingForATime();
        arrival();
        fullJournal();
        slowSink();
        healthySink();
        noWaitBesideAStore();
        closeBesideAStore();
        cutBesideAStore();
        loanBesideAStore(new Plain());
        loanBesideAStore(new Hooked());
        sinkBesideThePool();
        failingSink();
        endedThread();
        stoppedThread();
        printCounts();
    }
}
