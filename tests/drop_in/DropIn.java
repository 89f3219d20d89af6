import io.github.zuphinka.Leak;
import java.lang.management.ManagementFactory;
import java.nio.file.Files;
import java.nio.file.Path;
import java.time.Duration;
import java.util.ArrayList;
import java.util.Collections;
import java.util.List;
import java.util.NoSuchElementException;
import java.util.Random;
import java.util.Set;
import java.util.concurrent.CountDownLatch;
import java.util.concurrent.FutureTask;
import java.util.concurrent.atomic.AtomicInteger;
import java.util.regex.Pattern;
import javax.management.MBeanServer;
import javax.management.ObjectName;
import org.apache.commons.pool2.BasePooledObjectFactory;
import org.apache.commons.pool2.DestroyMode;
import org.apache.commons.pool2.PooledObject;
import org.apache.commons.pool2.impl.DefaultPooledObject;
import org.apache.commons.pool2.impl.GenericObjectPool;
import org.apache.commons.pool2.impl.GenericObjectPoolConfig;

/** The GenericObjectPool that stands in for the library's: its settings at any time, and calls of threads while settings change. */
public final class DropIn extends Expectations {
    private static final int THREADS = 4;
    private static final int ROUNDS = 1_000;
    private static final long SMALL_STACK = 300_000;

    private DropIn() {}

    /** Counts the objects that it made and destroyed, and how many there were at most. */
    private static class Counted extends BasePooledObjectFactory<Object> {
        private final AtomicInteger alive = new AtomicInteger();
        private final AtomicInteger most = new AtomicInteger();
        private final AtomicInteger destroyedTwice = new AtomicInteger();
        Exception passivates;

        @Override
        public Object create() {
            most.accumulateAndGet(alive.incrementAndGet(), Math::max);
            return new Object();
        }

        @Override
        public PooledObject<Object> wrap(Object object) {
            return new DefaultPooledObject<>(object);
        }

        @Override
        public void passivateObject(PooledObject<Object> pooled) throws Exception {
            if (passivates != null) {
                throw passivates;
            }
        }

        @Override
        public void destroyObject(PooledObject<Object> pooled, DestroyMode mode) {
            if (alive.decrementAndGet() < 0) {
                destroyedTwice.incrementAndGet();
            }
        }
    }

    private static GenericObjectPool<Object> pool(Counted factory) {
        GenericObjectPoolConfig<Object> config = new GenericObjectPoolConfig<>();
        config.setJmxEnabled(false);
        return new GenericObjectPool<>(factory, config);
    }

    private static String numbers(GenericObjectPool<?> pool) {
        return pool.getNumIdle() + " idle, " + pool.getNumActive() + " active, " + pool.getCreatedCount() + " created, "
                + pool.getDestroyedCount() + " destroyed, " + pool.getBorrowedCount() + " borrowed, " + pool.getReturnedCount() + " returned";
    }

    /** Returns the name of what a call throws, or what it returns. */
    private static String kind(Object result) {
        return String.valueOf(result).replaceAll(":.*", "");
    }

    /** A changed limit holds from the next call on, and lent objects come back. */
    private static void changedLimit() throws Exception {
        Counted factory = new Counted();
        GenericObjectPool<Object> pool = pool(factory);
        Object first = pool.borrowObject();
        Object second = pool.borrowObject();
        pool.setMaxTotal(1);
        pool.setBlockWhenExhausted(false);
        expect("the new limit", "NoSuchElementException", kind(result(pool::borrowObject)));
        pool.returnObject(first);
        pool.invalidateObject(second);
        expect("both came back", "1 idle, 0 active, 2 created, 1 destroyed, 2 borrowed, 1 returned", numbers(pool));
        Object third = pool.borrowObject();
        expect("the same limit", "NoSuchElementException", kind(result(pool::borrowObject)));
        pool.close();
        pool.returnObject(third);
        expect("after the close", "0 idle, 0 active, 2 created, 2 destroyed, 3 borrowed, 2 returned", numbers(pool));
        expect("a closed one", "IllegalStateException", kind(result(pool::borrowObject)));
    }

    private static FutureTask<Object> waiting(GenericObjectPool<Object> pool) throws Exception {
        FutureTask<Object> waiting = begun(() -> kind(pool.borrowObject()).replaceAll("@.*", ""));
        while (pool.getNumWaiters() == 0) {
            Thread.sleep(1);
        }
        return waiting;
    }

    /** A thread that waits gets a new place by {@code setConfig}, and by another setter and a later call. */
    private static void servedWaiters() throws Exception {
        GenericObjectPool<Object> pool = pool(new Counted());
        pool.setMaxTotal(1);
        Object lent = pool.borrowObject();
        FutureTask<Object> first = waiting(pool);
        GenericObjectPoolConfig<Object> config = new GenericObjectPoolConfig<>();
        config.setMaxTotal(2);
        pool.setConfig(config);
        expect("a new place by all settings", "java.lang.Object", within(first));
        FutureTask<Object> second = waiting(pool);
        pool.setMaxTotal(3);
        pool.use(lent);
        expect("a new place by one", "java.lang.Object", within(second));
        pool.close();
    }

    /** {@code setConfig} changes all settings at once, also for a thread that calls the pool while they are set. */
    private static void settingsAtOnce() throws Exception {
        GenericObjectPool<Object> pool = pool(new Counted());
        pool.setMaxTotal(1);
        pool.borrowObject();
        List<Object> meanwhile = new ArrayList<>();
        GenericObjectPoolConfig<Object> config = new GenericObjectPoolConfig<>() {
            @Override
            public int getMaxIdle() {
                meanwhile.add(within(begun(() -> pool.borrowObject(Duration.ofMillis(1)))));
                return super.getMaxIdle();
            }
        };
        config.setMaxTotal(2);
        config.setBlockWhenExhausted(false);
        pool.setConfig(config);
        expect("a borrow while all settings are set",
                List.of("NoSuchElementException: Timeout waiting for idle object, borrowMaxWaitDuration=PT0.001S"), meanwhile);
        pool.borrowObject();
        expect("a borrow after that", "NoSuchElementException: Pool exhausted", result(pool::borrowObject));
        pool.close();
    }

    /** Settings that the pool cannot have: calls that borrow throw that, and others go on with the settings before. */
    private static void refused() throws Exception {
        GenericObjectPool<Object> pool = pool(new Counted());
        Object lent = pool.borrowObject();
        pool.setMaxTotal(900_000);
        expect("more objects than a stored journal has room for", "IllegalArgumentException", kind(result(pool::borrowObject)));
        pool.returnObject(lent);
        expect("what is left", "1 idle, 0 active, 1 created, 0 destroyed, 1 borrowed, 1 returned", numbers(pool));
        pool.setMaxTotal(8);
        expect("set back", lent, pool.borrowObject());
        pool.close();
    }

    /** Some settings hold at once. */
    private static void freeSettings() throws Exception {
        Counted factory = new Counted();
        GenericObjectPool<Object> pool = pool(factory);
        pool.setMaxTotal(1);
        Object lent = pool.borrowObject();
        pool.setMaxWait(Duration.ofMillis(20));
        expect("another wait", "NoSuchElementException: Timeout waiting for idle object, borrowMaxWaitDuration=PT0.02S", result(pool::borrowObject));
        pool.setMessagesStatistics(true);
        expect("statistics", true, result(pool::borrowObject).toString().contains("PT0.02S, activeTimes="));
        List<Exception> swallowed = new ArrayList<>();
        pool.setSwallowedExceptionListener(swallowed::add);
        factory.passivates = new Exception("passivate");
        pool.returnObject(lent);
        expect("swallowed", List.of(factory.passivates), swallowed);
        factory.passivates = null;
        pool.addObject();
        pool.setTimeBetweenEvictionRuns(Duration.ofMillis(5));
        pool.setEvictorShutdownTimeout(Duration.ofMillis(100));
        expect("another borrow", "done", ending(() -> pool.returnObject(pool.borrowObject())));
        pool.close();
        expect("alive", 0, factory.alive.get());
    }

    /** What the library's class has not: the name and the numbers in messages, metrics, and the journal's folder. */
    private static void more() throws Exception {
        GenericObjectPool<Object> pool = new GenericObjectPool<>(new Counted());
        pool.setMaxTotal(1);
        pool.borrowObject();
        List<Leak> told = Collections.synchronizedList(new ArrayList<>());
        pool.setLeakListener(told::add);
        pool.setLeakStackTraces(true);
        pool.setLeakDetectionThreshold(Duration.ofMillis(1));
        String message = "";
        try {
            pool.borrowObject(5);
        } catch (NoSuchElementException e) {
            message = e.getMessage();
        }
        String name = Pattern.quote(pool.getJmxName().toString());
        expect("a timeout", true, message.matches("Timeout waiting for idle object, borrowMaxWaitDuration=PT0.005S: pool " + name
                + ", limit 5 ms, waited [0-9]+ ms, lent 1, idle 0, waiting 0, maxTotal 1"));
        expect("metrics", true, pool.metrics("orders").toString().contains("zuphinka_lent_objects{pool=\"orders\"} 1\n"));
        String journals = System.getProperty("zuphinka.journals");
        pool.flushJournal();
        Path folder = pool.getJournalFolder();
        expect("a journal", journals != null, folder != null && Files.exists(folder.resolve("segment-00000000000000000000")));
        if (folder != null) {
            expect("the folder of a pool", Path.of(journals).resolve(pool.getJmxName().toString()), folder.getParent());
        }
        pool.setMaxTotal(2);
        pool.borrowObject();
        until(() -> told.size() == 1);
        expect("a leak", Thread.currentThread().getName(), told.get(0).callerName());
        expect("with its stack", true, told.get(0).stack() != null);
        pool.close();
    }

    /** A borrow that has no memory to note its times has lent its object all the same. */
    private static void noMemoryForTimes() throws Exception {
        GenericObjectPool<Object> pool = pool(new Counted() {
            @Override
            public PooledObject<Object> wrap(Object object) {
                return new DefaultPooledObject<>(object) {
                    @Override
                    public Duration getIdleDuration() {
                        throw new OutOfMemoryError("times");
                    }
                };
            }
        });
        Object lent = result(pool::borrowObject);
        expect("a borrow without memory for its times", "done", ending(() -> pool.returnObject(lent)));
        expect("after its return", "1 idle, 0 active, 1 created, 0 destroyed, 1 borrowed, 1 returned", numbers(pool));
        pool.close();
    }

    /** The means are of the times for which objects were idle and lent, also of those whose wrapper reads no clock. */
    private static void meanTimes() throws Exception {
        long begun = System.nanoTime();
        GenericObjectPool<Object> pool = pool(new Counted());
        pool.addObject();
        slept(20);
        Object object = pool.borrowObject();
        slept(60);
        pool.returnObject(object);
        slept(20);
        pool.borrowObject();
        long idle = pool.getMeanIdleTimeMillis();
        long active = pool.getMeanActiveTimeMillis();
        long elapsed = Duration.ofNanos(System.nanoTime() - begun).toMillis();
        expect("idle for " + idle + " ms, lent for " + active + " ms, of " + elapsed, true, idle >= 20 && active >= 60 && 2 * idle + active <= elapsed);
        pool.setMaxTotal(1);
        FutureTask<Object> waiting = waiting(pool);
        slept(20);
        pool.setMaxTotal(2);
        pool.clear();
        within(waiting);
        expect("a wait", true, pool.getMaxBorrowWaitTimeMillis() >= 20);
        pool.close();
    }

    /** A pool that cannot be made leaves no MBean. */
    private static void unmade() throws Exception {
        MBeanServer server = ManagementFactory.getPlatformMBeanServer();
        ObjectName all = new ObjectName("org.apache.commons.pool2:*");
        Set<ObjectName> before = server.queryNames(all, null);
        String journals = System.getProperty("zuphinka.journals");
        Path file = Files.createTempFile("zuphinka", "");
        System.setProperty("zuphinka.journals", file.resolve("journals").toString());
        expect("journals below a file", "UncheckedIOException", kind(ending(() -> new GenericObjectPool<>(new Counted()).close())));
        expect("the MBean", before, server.queryNames(all, null));
        Files.delete(file);
        if (journals == null) {
            System.clearProperty("zuphinka.journals");
        } else {
            System.setProperty("zuphinka.journals", journals);
        }
    }

    /** Says that there is no object to make. */
    private static final class NoneLeft extends NoSuchElementException {
        private static final long serialVersionUID = 1;
    }

    /** What makes an object may throw what a borrow throws that gets none: it is thrown as it is, with its kind and its stack. */
    private static void failingMake() {
        NoSuchElementException nameless = new NoSuchElementException();
        for (NoSuchElementException failure : List.of(new NoneLeft(), new NoSuchElementException("make"), nameless)) {
            GenericObjectPool<Object> pool = pool(new Counted() {
                @Override
                public Object create() {
                    throw failure;
                }
            });
            expect("what is thrown for " + failure, failure, thrownBy(pool));
            pool.setMessagesStatistics(true);
            expect("what is thrown with statistics for " + failure, failure, thrownBy(pool));
            pool.close();
        }
    }

    private static Object thrownBy(GenericObjectPool<Object> pool) {
        try {
            return pool.borrowObject();
        } catch (Exception e) {
            return e;
        }
    }

    /** What a factory throws is thrown, also if the pool is closed meanwhile. */
    private static void closedWhileMaking() {
        List<GenericObjectPool<Object>> pools = new ArrayList<>();
        pools.add(pool(new Counted() {
            @Override
            public Object create() {
                pools.get(0).close();
                throw new IllegalStateException("make");
            }
        }));
        expect("a make that fails during a close", "IllegalStateException: make", result(pools.get(0)::borrowObject));
    }

    /** An eviction run that ends in an error tells what a test threw before that. */
    private static void failingRun() throws Exception {
        List<Throwable> failures = new ArrayList<>(List.of(new IllegalArgumentException("first"), new StackOverflowError("second")));
        GenericObjectPool<Object> pool = pool(new Counted() {
            @Override
            public boolean validateObject(PooledObject<Object> pooled) {
                Throwable failure = failures.remove(0);
                if (failure instanceof Error) {
                    throw (Error) failure;
                }
                throw (RuntimeException) failure;
            }
        });
        pool.setTestWhileIdle(true);
        pool.addObject();
        pool.addObject();
        try {
            pool.evict();
            expect("a run that ends in an error", "an error", "done");
        } catch (StackOverflowError e) {
            expect("a run that ends in an error", "second [java.lang.IllegalArgumentException: first]",
                    e.getMessage() + " " + List.of(e.getSuppressed()));
        }
        pool.close();
    }

    /** A close has no effect while another thread closes the pool, which may wait for it. */
    private static void closedByTwo() throws Exception {
        List<GenericObjectPool<Object>> pools = new ArrayList<>();
        List<Object> endings = new ArrayList<>();
        pools.add(pool(new Counted() {
            @Override
            public void destroyObject(PooledObject<Object> pooled, DestroyMode mode) {
                super.destroyObject(pooled, mode);
                endings.add(within(begun(() -> ending(pools.get(0)::close))));
            }
        }));
        pools.get(0).addObject();
        pools.get(0).close();
        expect("a close for which another one waits", List.of("done"), endings);
    }

    private static String state(GenericObjectPool<?> pool) {
        boolean isRegistered = ManagementFactory.getPlatformMBeanServer().isRegistered(pool.getJmxName());
        return (pool.isClosed() ? "closed, " : "open, ") + (isRegistered ? "registered" : "not registered");
    }

    /** A close that ends in an error of the factory is complete. */
    private static void failingClose() throws Exception {
        Counted factory = new Counted() {
            @Override
            public void destroyObject(PooledObject<Object> pooled, DestroyMode mode) {
                super.destroyObject(pooled, mode);
                throw new NoClassDefFoundError("destroy");
            }
        };
        GenericObjectPool<Object> pool = new GenericObjectPool<>(factory);
        pool.addObject();
        pool.addObject();
        expect("before a close that ends in an error", "open, registered", state(pool));
        expect("a close that ends in an error", "NoClassDefFoundError: destroy", ending(pool::close));
        expect("after it", "closed, not registered", state(pool));
        expect("alive after it", 0, factory.alive.get());
    }

    /** Closes a pool in the first frame whose stack is too full for that. */
    private static final class Diver implements Runnable {
        private final GenericObjectPool<Object> pool;
        private Object ending;

        Diver(GenericObjectPool<Object> pool) {
            this.pool = pool;
        }

        @Override
        public void run() {
            if (result(pool::getNumIdle) instanceof Integer) {
                run();
            } else {
                ending = ending(pool::close);
            }
        }
    }

    /** A close that a full stack refuses ends nothing. The classes of the timer are loaded before. */
    private static void refusedClose() throws Exception {
        GenericObjectPool<Object> first = pool(new Counted());
        first.setTimeBetweenEvictionRuns(Duration.ofMillis(1));
        first.close();
        Counted factory = new Counted();
        GenericObjectPool<Object> pool = new GenericObjectPool<>(factory);
        pool.setTimeBetweenEvictionRuns(Duration.ofMillis(1));
        Diver diver = new Diver(pool);
        Thread thread = new Thread(null, diver, "diver", SMALL_STACK);
        thread.start();
        thread.join();
        expect("a close with a full stack", "StackOverflowError: zuphinka: too little stack", diver.ending);
        expect("after it", "open, registered", state(pool));
        pool.setMinIdle(1);
        until(() -> pool.getNumIdle() == 1);
        expect("its timer", 1, pool.getNumIdle());
        pool.close();
        expect("a later close", "closed, not registered", state(pool));
        expect("alive after that", 0, factory.alive.get());
    }

    private static void closedWhileWaiting() throws Exception {
        GenericObjectPool<Object> pool = pool(new Counted());
        pool.setMaxTotal(1);
        pool.borrowObject();
        FutureTask<Object> waiting = waiting(pool);
        pool.close();
        expect("a borrow that a close ends", "InterruptedException", kind(within(waiting)));
    }

    /** Borrows, returns, and changes settings. */
    private static Object calls(GenericObjectPool<Object> pool, int seed) throws Exception {
        Random random = new Random(seed);
        for (int round = 0; round < ROUNDS; round++) {
            try {
                Object object = pool.borrowObject(Duration.ofMillis(5));
                if (random.nextInt(4) > 0) {
                    pool.returnObject(object);
                } else {
                    pool.invalidateObject(object);
                }
            } catch (NoSuchElementException e) {
                pool.clear();
            }
            if (random.nextInt(50) == 0) {
                pool.setMaxTotal(2 + random.nextInt(2));
                pool.setTestOnBorrow(random.nextBoolean());
                pool.setTestOnReturn(random.nextBoolean());
                pool.setMaxIdle(1 + random.nextInt(3));
            }
        }
        return "done";
    }

    private static void changedByThreads() {
        for (int seed = 0; seed < 4; seed++) {
            Counted factory = new Counted();
            GenericObjectPool<Object> pool = pool(factory);
            pool.setMaxTotal(3);
            List<FutureTask<Object>> threads = new ArrayList<>();
            for (int thread = 0; thread < THREADS; thread++) {
                int number = THREADS * seed + thread;
                threads.add(begun(() -> calls(pool, number)));
            }
            threads.forEach(thread -> expect("calls while settings change", "done", within(thread)));
            expect("none is lent", 0, pool.getNumActive());
            expect("no more objects than any limit", true, factory.most.get() <= 3);
            pool.close();
            expect("none is alive", 0, factory.alive.get());
            expect("none was destroyed twice", 0, factory.destroyedTwice.get());
            expect("all are counted", pool.getCreatedCount(), pool.getDestroyedCount());
        }
    }

    private static Object slept(long millis) {
        return result(() -> {
            Thread.sleep(millis);
            return null;
        });
    }

    /** A close waits for an eviction run, whoever makes it, and leaves no idle object alive. */
    private static void closedDuringRun() throws Exception {
        CountDownLatch testing = new CountDownLatch(1);
        Counted factory = new Counted() {
            @Override
            public boolean validateObject(PooledObject<Object> pooled) {
                testing.countDown();
                slept(300);
                return true;
            }
        };
        GenericObjectPool<Object> pool = pool(factory);
        pool.setTestWhileIdle(true);
        pool.addObject();
        FutureTask<Object> run = begun(() -> ending(pool::evict));
        testing.await();
        pool.close();
        expect("objects alive after a close during an eviction run", 0, factory.alive.get());
        expect("the run", "done", within(run));
    }

    /** There is one eviction run of a pool at a time, so a policy is asked by one thread. */
    private static void oneRunAtATime() throws Exception {
        AtomicInteger inside = new AtomicInteger();
        AtomicInteger most = new AtomicInteger();
        GenericObjectPool<Object> pool = pool(new Counted());
        pool.addObjects(4);
        pool.setEvictionPolicy((config, pooled, idle) -> {
            most.accumulateAndGet(inside.incrementAndGet(), Math::max);
            slept(30);
            inside.decrementAndGet();
            return false;
        });
        FutureTask<Object> first = begun(() -> ending(pool::evict));
        FutureTask<Object> second = begun(() -> ending(pool::evict));
        expect("two runs", List.of("done", "done"), List.of(within(first), within(second)));
        expect("calls of the policy at once", 1, most.get());
        pool.close();
    }

    /** A borrow that waits goes on to wait where others may wait no more. */
    private static void waitingWhileOthersMayNot() throws Exception {
        int refused = 0;
        for (int round = 0; round < 100; round++) {
            GenericObjectPool<Object> pool = pool(new Counted());
            pool.setMaxTotal(1);
            Object lent = pool.borrowObject();
            FutureTask<Object> waiting = waiting(pool);
            pool.setBlockWhenExhausted(false);
            for (int loan = 0; loan < 20 && lent != null && !waiting.isDone(); loan++) {
                pool.returnObject(lent);
                Object next = result(pool::borrowObject);
                lent = next.getClass() == Object.class ? next : null;
            }
            if (lent != null) {
                pool.returnObject(lent);
            }
            refused += within(waiting).equals("java.lang.Object") ? 0 : 1;
            pool.close();
        }
        expect("waiting borrows that were refused", 0, refused);
    }

    /** A close interrupts no borrow that does not wait. */
    private static void closedWhileActivating() throws Exception {
        List<GenericObjectPool<Object>> pools = new ArrayList<>();
        GenericObjectPool<Object> pool = pool(new Counted() {
            @Override
            public void activateObject(PooledObject<Object> pooled) throws Exception {
                pools.get(0).close();
                throw new Exception("activate");
            }
        });
        pools.add(pool);
        pool.addObject();
        expect("a borrow whose pool is closed while it activates", "IllegalStateException: Pool not open", result(pool::borrowObject));
    }

    /** The objects that eviction runs destroyed are counted one after the other. */
    private static void evictedSoFar() throws Exception {
        List<Object> counts = new ArrayList<>();
        List<GenericObjectPool<Object>> pools = new ArrayList<>();
        GenericObjectPool<Object> pool = pool(new Counted() {
            @Override
            public void destroyObject(PooledObject<Object> pooled, DestroyMode mode) {
                counts.add(pools.get(0).getDestroyedByEvictorCount());
            }
        });
        pools.add(pool);
        pool.addObjects(3);
        pool.setMinEvictableIdle(Duration.ofMillis(1));
        slept(5);
        pool.evict();
        expect("evicted objects at each destruction", List.of(0L, 1L, 2L), counts);
        pool.close();
    }

    /** A factory with a method of a class that is missing is used as any other. */
    private static void missingClass() throws Exception {
        GenericObjectPool<Object> pool = new GenericObjectPool<>(Lacking.make());
        pool.returnObject(pool.borrowObject());
        expect("a factory that lacks a class", 1, pool.getNumIdle());
        pool.close();
    }

    public static void main(String[] words) throws Exception {
        String place = GenericObjectPool.class.getProtectionDomain().getCodeSource().getLocation().toString();
        expect("where the class is from", words[0], place.replaceAll(".*/", ""));
        changedLimit();
        servedWaiters();
        settingsAtOnce();
        if (System.getProperty("zuphinka.journals") != null) {
            refused();
        }
        freeSettings();
        more();
        closedWhileWaiting();
        closedByTwo();
        failingClose();
        refusedClose();
        failingMake();
        closedWhileMaking();
        failingRun();
        noMemoryForTimes();
        meanTimes();
        unmade();
        changedByThreads();
        closedDuringRun();
        oneRunAtATime();
        waitingWhileOthersMayNot();
        closedWhileActivating();
        evictedSoFar();
        missingClass();
        printCounts();
    }
}
