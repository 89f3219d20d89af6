import com.sun.management.ThreadMXBean;
import io.github.zuphinka.Journal;
import io.github.zuphinka.Lease;
import io.github.zuphinka.ZuphinkaPool;
import java.io.IOException;
import java.io.PrintWriter;
import java.io.StringWriter;
import java.lang.management.ManagementFactory;
import java.time.Duration;
import java.util.ArrayList;
import java.util.List;
import java.util.concurrent.BlockingQueue;
import java.util.concurrent.LinkedBlockingQueue;
import java.util.concurrent.atomic.AtomicInteger;
import javax.management.MBeanServer;
import org.apache.commons.pool2.PooledObject;
import org.apache.commons.pool2.impl.AbandonedConfig;
import org.apache.commons.pool2.impl.DefaultPooledObject;
import org.apache.commons.pool2.impl.GenericObjectPoolConfig;

/** Errors of the virtual machine, and of code that a pool calls: none keeps the pool's lock, or the place of an object. */
public final class Errors extends Expectations {
    private static final int POOLS = 40;
    private static final long SMALL_STACK = 300_000;
    /** In how many frames above a full stack the pool is called. */
    private static final int CALLS = 400;

    private Errors() {}

    private static GenericObjectPoolConfig<Object> config(int maxTotal) {
        GenericObjectPoolConfig<Object> config = new GenericObjectPoolConfig<>();
        config.setJmxEnabled(false);
        config.setMaxTotal(maxTotal);
        return config;
    }

    /** Borrows and returns in another thread, and returns the counts after it. */
    private static Object afterLoan(ZuphinkaPool<Object> pool) {
        return within(begun(() -> {
            pool.returnObject(pool.borrowObject());
            return counts(pool);
        }));
    }

    /** Calls a pool while little of the stack is left: first nothing, then more in each frame. */
    private static class Diver implements Runnable {
        final ZuphinkaPool<Object> pool;
        private Object lent;
        private int calls;

        Diver(ZuphinkaPool<Object> pool) {
            this.pool = pool;
        }

        @Override
        public void run() {
            try {
                run();
            } catch (StackOverflowError e) {
                // The stack is full.
            }
            try {
                call();
            } catch (StackOverflowError e) {
                // It is still too full for a call.
            }
        }

        private void call() {
            if (calls == CALLS) {
                return;
            }
            calls++;
            try {
                makeLoan();
            } catch (Exception e) {
                throw new AssertionError(e);
            }
        }

        /** Makes a loan, or ends one that could not be ended. */
        void makeLoan() throws Exception {
            if (lent == null) {
                lent = pool.borrowObject();
            }
            pool.returnObject(lent);
            lent = null;
        }
    }

    /** Does the same with leases. */
    private static final class LeaseDiver extends Diver {
        private Lease<Object> lease;

        LeaseDiver(ZuphinkaPool<Object> pool) {
            super(pool);
        }

        @Override
        void makeLoan() throws Exception {
            if (lease == null) {
                lease = pool.lease();
            }
            lease.get();
            lease.close();
            lease = null;
        }
    }

    private static void fullStacks() throws Exception {
        for (int number = 0; number < POOLS; number++) {
            Journal journal = number % 2 == 0 ? Journal.dropped().limit(100) : whenDue(segment -> {}).limit(100);
            ZuphinkaPool<Object> pool = new ZuphinkaPool<>(new Plain(), config(1), null, journal);
            Diver diver = number / 2 % 2 == 0 ? new Diver(pool) : new LeaseDiver(pool);
            Thread thread = new Thread(null, diver, "diver", SMALL_STACK);
            thread.start();
            thread.join();
            expect("a pool that was called with a full stack", "1 idle, 0 active, 1 created, 0 destroyed", afterLoan(pool));
            pool.close();
        }
    }

    /** Flushes the journal of a pool. */
    private static final class FlushDiver extends Diver {
        FlushDiver(ZuphinkaPool<Object> pool) {
            super(pool);
        }

        @Override
        void makeLoan() {
            pool.flushJournal();
        }
    }

    /** A flush on a full stack keeps no lock, neither of the pool nor of its sink. */
    private static void refusedFlushes() throws Exception {
        for (int number = 0; number < POOLS / 10; number++) {
            ZuphinkaPool<Object> pool = new ZuphinkaPool<>(new Plain(), config(1), null, whenDue(segment -> {}).limit(100));
            pool.returnObject(pool.borrowObject());
            Thread thread = new Thread(null, new FlushDiver(pool), "diver", SMALL_STACK);
            thread.start();
            thread.join();
            expect("a pool that was flushed with a full stack", "1 idle, 0 active, 1 created, 0 destroyed", afterLoan(pool));
            expect("its close", "done", within(begun(() -> ending(pool::close))));
        }
    }

    /** Closes a pool, until that was refused so often: some frames above these a close would be done. */
    private static final class CloseDiver extends Diver {
        static final int MOST = 8;
        int refused;

        CloseDiver(ZuphinkaPool<Object> pool) {
            super(pool);
        }

        @Override
        void makeLoan() {
            try {
                if (refused < MOST) {
                    pool.close();
                }
            } catch (StackOverflowError e) {
                refused += "zuphinka: too little stack".equals(e.getMessage()) ? 1 : 0;
            }
        }
    }

    /** A close that a full stack refuses ends nothing, also if it is the first call of all. */
    private static void refusedCloses() throws Exception {
        GenericObjectPoolConfig<Object> config = config(1);
        config.setJmxEnabled(true);
        config.setMinIdle(1);
        ZuphinkaPool<Object> pool = new ZuphinkaPool<>(new Plain(), config);
        MBeanServer server = ManagementFactory.getPlatformMBeanServer();
        CloseDiver diver = new CloseDiver(pool);
        Thread thread = new Thread(null, diver, "diver", SMALL_STACK);
        thread.start();
        thread.join();
        expect("closes that are refused", CloseDiver.MOST, diver.refused);
        expect("a close with a full stack", "open, registered", state(pool, server));
        expect("a loan after it", "1 idle, 0 active, 1 created, 0 destroyed", afterLoan(pool));
        pool.clear();
        pool.setTimeBetweenEvictionRuns(Duration.ofMillis(1));
        until(() -> pool.getNumIdle() == 1);
        expect("its maintenance", 1, pool.getNumIdle());
        pool.close();
        expect("a close", "closed, not registered", state(pool, server));
    }

    private static String state(ZuphinkaPool<Object> pool, MBeanServer server) {
        return (pool.isClosed() ? "closed, " : "open, ") + (server.isRegistered(pool.getJmxName()) ? "registered" : "not registered");
    }

    /** Whether a pool is closed is known without memory, also to the maintenance thread. */
    private static void closedWithoutMemory() {
        ZuphinkaPool<Object> pool = new ZuphinkaPool<>(new Plain(), config(1));
        ThreadMXBean threads = (ThreadMXBean) ManagementFactory.getThreadMXBean();
        long thread = Thread.currentThread().getId();
        long before = threads.getThreadAllocatedBytes(thread);
        int closed = 0;
        for (int number = 0; number < 1_000; number++) {
            closed += pool.isClosed() ? 1 : 0;
        }
        long bytes = threads.getThreadAllocatedBytes(thread) - before;
        expect("memory for a thousand answers, " + bytes + " bytes", true, bytes < 1_000 && closed == 0);
        pool.close();
    }

    /** What receives the failures of a sink. */
    private static final class Noting extends ZuphinkaPool<Object> {
        final List<Throwable> noted = new ArrayList<>();
        private final boolean isBroken;

        Noting(Plain factory, Journal journal, boolean isBroken) {
            super(factory, config(1), null, journal);
            this.isBroken = isBroken;
        }

        @Override
        protected void swallowed(Exception failure) {
            noted.add(failure instanceof IllegalStateException ? failure.getCause() : failure);
            if (isBroken) {
                throw new StackOverflowError("swallowed");
            }
        }
    }

    /** An error of a sink, or of what receives its failures, costs no place. */
    private static void sinks() throws Exception {
        StackOverflowError error = new StackOverflowError("sink");
        Journal failing = whenDue(segment -> {
            throw error;
        }).limit(100);
        for (Plain factory : List.of(new Plain(), new Fragile())) {
            for (boolean isBroken : new boolean[] {false, true}) {
                Noting pool = new Noting(factory, failing, isBroken);
                for (int round = 0; round < 15; round++) {
                    pool.returnObject(pool.borrowObject());
                }
                expect("a sink that ends in an error", "1 idle, 0 active, 1 created, 0 destroyed", counts(pool));
                expect("it is passed on", true, pool.noted.contains(error));
                expect("a flush of such a sink", "done", ending(pool::flushJournal));
                expect("a close over such a sink", "done", ending(pool::close));
                expect("after the close", "0 idle, 0 active, 1 created, 1 destroyed", counts(pool));
            }
        }
    }

    /** A pool that borrows from itself when it receives a failure. */
    private static final class Borrowing extends ZuphinkaPool<Object> {
        int reports;
        int depth;
        int deepest;

        Borrowing(Journal journal) {
            super(new Plain(), config(8), null, journal);
        }

        @Override
        protected void swallowed(Exception failure) {
            reports++;
            depth++;
            deepest = Math.max(deepest, depth);
            ending(() -> {
                for (int loan = 0; loan < 5; loan++) {
                    returnObject(borrowObject());
                }
            });
            depth--;
        }
    }

    /** What receives failures may call the pool: it gets no report within a report. */
    private static void reports() throws Exception {
        Borrowing pool = new Borrowing(whenDue(segment -> {
            throw new IOException("sink");
        }).limit(100));
        Object ending;
        do {
            ending = ending(() -> pool.returnObject(pool.borrowObject()));
        } while (ending.equals("done"));
        expect("the journal is full", "IllegalStateException: Journal full from sink", ending);
        pool.flushJournal();
        expect("reports", true, pool.reports > 1);
        expect("a report within a report", 1, pool.deepest);
        pool.close();
    }

    /** A factory with hooks. Destructions and wrappers fail where it is told to. */
    private static final class Fragile extends Plain {
        String failing = "";
        final Throwable error;
        int destroyed;

        Fragile() {
            this(new OutOfMemoryError("a call"));
        }

        Fragile(Throwable error) {
            this.error = error;
        }

        /** Throws where it is told to, once. */
        void pass(String what) {
            if (failing.equals(what)) {
                failing = "";
                if (error instanceof Error) {
                    throw (Error) error;
                }
                throw (RuntimeException) error;
            }
        }

        @Override
        public PooledObject<Object> wrap(Object object) {
            return new FragileWrapper(this, object);
        }

        @Override
        public void activateObject(PooledObject<Object> pooled) {}

        @Override
        public void passivateObject(PooledObject<Object> pooled) {}

        @Override
        public void destroyObject(PooledObject<Object> pooled) {
            destroyed++;
            pass("destroy");
        }
    }

    /** A factory without hooks, whose wrappers fail. */
    private static final class FragileWrappers extends Plain {
        private final Fragile told;

        FragileWrappers(Fragile told) {
            this.told = told;
        }

        @Override
        public PooledObject<Object> wrap(Object object) {
            return new FragileWrapper(told, object);
        }

        @Override
        public void destroyObject(PooledObject<Object> pooled) {
            told.destroyed++;
        }
    }

    private static final class FragileWrapper extends DefaultPooledObject<Object> {
        private final Fragile told;

        FragileWrapper(Fragile told, Object object) {
            super(object);
            this.told = told;
        }

        @Override
        public boolean allocate() {
            told.pass("allocate");
            return super.allocate();
        }

        @Override
        public boolean deallocate() {
            told.pass("deallocate");
            return super.deallocate();
        }

        @Override
        public void invalidate() {
            told.pass("invalidate");
            super.invalidate();
        }

        @Override
        public void setLogAbandoned(boolean isLogged) {
            told.pass("log");
            super.setLogAbandoned(isLogged);
        }

        @Override
        public void printStackTrace(PrintWriter writer) {
            told.pass("print");
            super.printStackTrace(writer);
        }
    }

    /** Pools of one object, whose loans are logged, with and without hooks. */
    private static ZuphinkaPool<Object> logged(Fragile told, boolean hasHooks) {
        AbandonedConfig abandoned = new AbandonedConfig();
        abandoned.setLogAbandoned(true);
        abandoned.setLogWriter(new PrintWriter(new StringWriter()));
        abandoned.setRemoveAbandonedOnMaintenance(true);
        abandoned.setRemoveAbandonedTimeout(Duration.ZERO);
        return new ZuphinkaPool<>(hasHooks ? told : new FragileWrappers(told), config(5), abandoned);
    }

    /** What fails between two steps of a borrow or a return costs no place, and the object is destroyed. */
    private static void loans(Throwable error, boolean hasHooks) throws Exception {
        String thrown = error.getClass().getSimpleName() + ": a call";
        String name = thrown + (hasHooks ? ", with hooks: " : ": ");
        Fragile told = new Fragile(error);
        ZuphinkaPool<Object> pool = logged(told, hasHooks);
        told.failing = "log";
        expect(name + "a wrapper that is not logged", thrown, result(pool::borrowObject));
        expect(name + "its object is destroyed", "1, 0 idle, 0 active, 1 created, 1 destroyed", told.destroyed + ", " + counts(pool));
        told.failing = "allocate";
        boolean isError = error instanceof Error;
        expect(name + "a new object that is not allocated", isError ? thrown : "NoSuchElementException: Unable to activate object from a call",
                result(pool::borrowObject));
        pool.addObject();
        told.failing = "allocate";
        Object second = result(pool::borrowObject);
        expect(name + "an idle object that is not allocated", isError, thrown.equals(second));
        if (!isError) {
            pool.returnObject(second);
        }
        expect(name + "they are destroyed", "3, 3 destroyed", told.destroyed + ", " + pool.getDestroyedCount() + " destroyed");
        Object lent = pool.borrowObject();
        told.failing = "deallocate";
        expect(name + "a return that is not deallocated", isError ? thrown : "done", ending(() -> pool.returnObject(lent)));
        expect(name + "all places are free", "4, 0 idle, 0 active, 4 created, 4 destroyed", told.destroyed + ", " + counts(pool));
        Object last = pool.borrowObject();
        told.failing = "invalidate";
        expect(name + "an invalidation", thrown, ending(() -> pool.invalidateObject(last)));
        expect(name + "its object is destroyed", "5, 0 idle, 0 active, 5 created, 5 destroyed", told.destroyed + ", " + counts(pool));
        pool.close();
    }

    /** What fails at the first object of several leaves none of the others behind. */
    private static void many(Throwable error) throws Exception {
        String thrown = error.getClass().getSimpleName() + ": a call";
        for (String failing : List.of("print", "invalidate", "destroy")) {
            Fragile told = new Fragile(error);
            ZuphinkaPool<Object> pool = logged(told, true);
            for (int number = 0; number < 5; number++) {
                pool.borrowObject();
            }
            told.failing = failing;
            expect("a reclaim, " + failing, error instanceof Error ? thrown : "done", ending(pool::evict));
            expect("all are destroyed, " + failing, "5, 0 idle, 0 active, 5 created, 5 destroyed", told.destroyed + ", " + counts(pool));
            for (int number = 0; number < 5; number++) {
                pool.addObject();
            }
            told.failing = failing;
            boolean isThrown = error instanceof Error && !failing.equals("print");
            expect("a close, " + failing, isThrown ? thrown : "done", ending(pool::close));
            expect("all are destroyed by it, " + failing, "10, 0 idle, 0 active, 10 created, 10 destroyed", told.destroyed + ", " + counts(pool));
        }
    }

    /** A close that ends in an error has ended the maintenance thread, and stored the journal. */
    private static void closes() throws Exception {
        Fragile told = new Fragile();
        GenericObjectPoolConfig<Object> config = config(1);
        config.setTimeBetweenEvictionRuns(Duration.ofHours(1));
        List<Long> stored = new ArrayList<>();
        ZuphinkaPool<Object> pool = new ZuphinkaPool<>(told, config, null, whenDue(segment -> stored.add(segment.entries())));
        pool.addObject();
        told.failing = "destroy";
        expect("a close that ends in an error", "OutOfMemoryError: a call", ending(pool::close));
        expect("its journal is stored", List.of(pool.getCounts().steps()), stored);
        boolean isOver = Thread.getAllStackTraces().keySet().stream().noneMatch(thread -> thread.getName().equals("zuphinka-maintenance"));
        expect("its thread has ended", true, isOver);
    }

    /** Cannot make the first object, for an error that is no exception. */
    private static final class LinkedLate extends Plain {
        private final AtomicInteger made = new AtomicInteger();

        @Override
        public Object create() {
            if (made.getAndIncrement() == 0) {
                throw new LinkageError("make");
            }
            return super.create();
        }
    }

    /** Keeps what the maintenance thread reports. */
    private static final class Maintained extends ZuphinkaPool<Object> {
        private final BlockingQueue<Exception> told = new LinkedBlockingQueue<>();

        Maintained(GenericObjectPoolConfig<Object> config) {
            super(new LinkedLate(), config);
        }

        @Override
        protected void swallowed(Exception failure) {
            told.add(failure);
        }
    }

    /** An error of the factory ends a round of the maintenance thread, and not the thread. */
    private static void maintained() throws Exception {
        GenericObjectPoolConfig<Object> config = config(1);
        config.setMinIdle(1);
        config.setTimeBetweenEvictionRuns(Duration.ofMillis(1));
        Maintained pool = new Maintained(config);
        expect("an error of a round is told", "IllegalStateException: java.lang.LinkageError: make", within(begun(() -> said(pool.told.take()))));
        expect("the next round makes the object", 1, within(begun(() -> {
            while (pool.getNumIdle() == 0) {
                Thread.sleep(1);
            }
            return pool.getNumIdle();
        })));
        pool.close();
    }

    /** A factory with a method of a class that is missing is used as any other. */
    private static void missingClass() throws Exception {
        ZuphinkaPool<Object> pool = new ZuphinkaPool<>(Lacking.make(), config(1));
        expect("a factory that lacks a class", "1 idle, 0 active, 1 created, 0 destroyed", afterLoan(pool));
        pool.close();
    }

    private static String said(Throwable failure) {
        return failure.getClass().getSimpleName() + ": " + failure.getMessage();
    }

    public static void main(String[] words) throws Exception {
        refusedCloses();
        closedWithoutMemory();
        fullStacks();
        refusedFlushes();
        sinks();
        reports();
        for (Throwable error : List.of(new OutOfMemoryError("a call"), new IllegalArgumentException("a call"))) {
            loans(error, false);
            loans(error, true);
            many(error);
        }
        closes();
        maintained();
        missingClass();
        printCounts();
    }
}
