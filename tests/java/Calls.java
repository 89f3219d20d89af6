import io.github.zuphinka.Finding;
import io.github.zuphinka.Journal;
import io.github.zuphinka.Lease;
import io.github.zuphinka.Segment;
import io.github.zuphinka.ZuphinkaPool;
import java.io.IOException;
import java.io.PrintWriter;
import java.io.StringWriter;
import java.lang.management.ManagementFactory;
import java.nio.charset.StandardCharsets;
import java.nio.file.Files;
import java.nio.file.Path;
import java.time.Duration;
import java.time.Instant;
import java.util.ArrayList;
import java.util.Arrays;
import java.util.List;
import java.util.NoSuchElementException;
import java.util.Set;
import java.util.concurrent.Callable;
import java.util.concurrent.CompletableFuture;
import java.util.concurrent.ConcurrentHashMap;
import java.util.concurrent.CountDownLatch;
import java.util.concurrent.FutureTask;
import java.util.concurrent.TimeUnit;
import java.util.concurrent.atomic.AtomicInteger;
import java.util.function.UnaryOperator;
import java.util.stream.Collectors;
import java.util.stream.Stream;
import javax.management.MBeanAttributeInfo;
import javax.management.MBeanServer;
import javax.management.ObjectName;
import javax.management.openmbean.CompositeData;
import org.apache.commons.pool2.BasePooledObjectFactory;
import org.apache.commons.pool2.DestroyMode;
import org.apache.commons.pool2.ObjectPool;
import org.apache.commons.pool2.PooledObject;
import org.apache.commons.pool2.PooledObjectState;
import org.apache.commons.pool2.TrackedUse;
import org.apache.commons.pool2.impl.AbandonedConfig;
import org.apache.commons.pool2.impl.DefaultPooledObject;
import org.apache.commons.pool2.impl.DefaultPooledObjectInfo;
import org.apache.commons.pool2.impl.GenericObjectPool;
import org.apache.commons.pool2.impl.GenericObjectPoolConfig;
import org.apache.commons.pool2.impl.GenericObjectPoolMXBean;

/** Makes each call of a pool, with what the factory throws, and sees what it returns, throws and leaves. Writes journals to a folder. */
public final class Calls extends Expectations {
    private Calls() {}

    /** A factory of texts, numbered from 0, which fails where it is told to, and notes what it is asked. */
    static final class Texts extends BasePooledObjectFactory<String> {
        final List<String> asked = new ArrayList<>();
        private final AtomicInteger next = new AtomicInteger();
        long makeMillis;
        Throwable makes;
        Throwable activates;
        Throwable validates;
        Throwable passivates;
        Throwable destroys;
        boolean isInvalid;

        private void fail(String what, Throwable with) throws Exception {
            asked.add(what);
            if (with instanceof Error) {
                throw (Error) with;
            }
            if (with != null) {
                throw (Exception) with;
            }
        }

        @Override
        public String create() throws Exception {
            Thread.sleep(makeMillis);
            fail("make", makes);
            return new String("text " + next.getAndIncrement());
        }

        @Override
        public PooledObject<String> wrap(String text) {
            return new DefaultPooledObject<>(text);
        }

        @Override
        public void activateObject(PooledObject<String> pooled) throws Exception {
            fail("activate", activates);
        }

        @Override
        public boolean validateObject(PooledObject<String> pooled) {
            asked.add("validate");
            if (validates instanceof Error) {
                throw (Error) validates;
            }
            if (validates != null) {
                throw (RuntimeException) validates;
            }
            return !isInvalid;
        }

        @Override
        public void passivateObject(PooledObject<String> pooled) throws Exception {
            fail("passivate", passivates);
        }

        @Override
        public void destroyObject(PooledObject<String> pooled) throws Exception {
            fail("destroy", destroys);
        }

        @Override
        public void destroyObject(PooledObject<String> pooled, DestroyMode mode) throws Exception {
            fail(mode == DestroyMode.NORMAL ? "destroy" : "destroy " + mode, destroys);
        }

        /** Returns what it was asked since this was last called. */
        String asked() {
            String words = String.join(" ", asked);
            asked.clear();
            return words;
        }
    }

    /** A pool that notes what it swallows. */
    static final class Noting extends ZuphinkaPool<String> {
        final List<Exception> noted = new ArrayList<>();

        Noting(Texts texts, GenericObjectPoolConfig<String> config, AbandonedConfig abandoned) {
            super(texts, config, abandoned, Journal.kept());
        }

        @Override
        protected void swallowed(Exception failure) {
            noted.add(failure);
        }
    }

    private static GenericObjectPoolConfig<String> config() {
        GenericObjectPoolConfig<String> config = new GenericObjectPoolConfig<>();
        config.setJmxEnabled(false);
        return config;
    }

    /** Threads are numbered from 0, in the order of their first calls, and the journal names them so. No other thread has called a pool. */
    private static void callers() throws Exception {
        Noting pool = new Noting(new Texts(), config(), null);
        pool.addObject();
        expect("the second thread", "done", within(begun(() -> ending(pool::addObject))));
        expect("the third one", 2L, within(begun(ZuphinkaPool::callerNumber)));
        expect("the first one", 0L, ZuphinkaPool.callerNumber());
        pool.close();
        List<String> names = new String(pool.getJournal().text(), StandardCharsets.US_ASCII).lines()
                .filter(line -> line.contains(" = "))
                .map(line -> line.substring(0, line.indexOf(' ')))
                .collect(Collectors.toList());
        expect("their numbers in the journal", List.of("0", "0", "1", "1", "0", "0", "0", "0", "0"), names);
        write(pool);
    }

    private static void life() throws Exception {
        Texts texts = new Texts();
        Noting pool = new Noting(texts, config(), null);
        String first = pool.borrowObject();
        expect("a borrow", "text 0", first);
        expect("a borrow asks", "make activate", texts.asked());
        expect("while it is lent", "0 idle, 1 active, 1 created, 0 destroyed", counts(pool));
        pool.returnObject(first);
        expect("a return asks", "passivate", texts.asked());
        expect("returned", "1 idle, 0 active, 1 created, 0 destroyed", counts(pool));
        expect("returned twice", "IllegalStateException: Object has already been returned to this pool or is invalid",
                ending(() -> pool.returnObject(first)));
        expect("another object", "IllegalStateException: Returned object not currently part of this pool",
                ending(() -> pool.returnObject(new String("text 0"))));
        expect("the same again", true, first == pool.borrowObject());
        pool.invalidateObject(first);
        expect("invalidated", "activate destroy", texts.asked());
        expect("invalidated twice", "IllegalStateException: Invalidated object not currently part of this pool",
                ending(() -> pool.invalidateObject(first)));
        pool.invalidateObject(pool.borrowObject(), DestroyMode.ABANDONED);
        expect("invalidated in a mode", "make activate destroy ABANDONED", texts.asked());
        pool.addObject();
        pool.addObject();
        expect("added", "2 idle, 0 active, 4 created, 2 destroyed", counts(pool));
        texts.asked();
        pool.clear();
        expect("cleared", "destroy destroy", texts.asked());
        String last = pool.borrowObject();
        pool.close();
        pool.close();
        expect("closed", "IllegalStateException: Pool not open", result(pool::borrowObject));
        expect("closed for more", "IllegalStateException: Pool not open", ending(pool::addObject));
        pool.returnObject(last);
        expect("returned after the close", "0 idle, 0 active, 5 created, 5 destroyed", counts(pool));
        expect("numbers", "4 borrowed, 2 returned", pool.getBorrowedCount() + " borrowed, " + pool.getReturnedCount() + " returned");
        expect("nothing swallowed", List.of(), pool.noted);
        write(pool);
    }

    /** Returns what a lease gives after it was used in a block, which ends normally or not. */
    private static Object afterBlock(Noting pool, Exception failure) throws Exception {
        Lease<String> kept = null;
        try (Lease<String> lease = pool.lease()) {
            kept = lease;
            expect("the object of a lease", true, lease.get() != null && lease.get() == lease.get());
            expect("while it is leased", "0 idle, 1 active", counts(pool).substring(0, 16));
            if (failure != null) {
                throw failure;
            }
        } catch (IOException e) {
            expect("what a block throws", failure, e);
        }
        return result(kept::get);
    }

    private static void leases() throws Exception {
        GenericObjectPoolConfig<String> config = config();
        config.setMaxTotal(1);
        config.setMaxWait(Duration.ofMillis(30));
        Texts texts = new Texts();
        Noting pool = new Noting(texts, config, null);
        expect("after a block", "IllegalStateException: The lease is over", afterBlock(pool, null));
        expect("after a block that throws", "IllegalStateException: The lease is over", afterBlock(pool, new IOException("block")));
        expect("one object for both", "1 idle, 0 active, 1 created, 0 destroyed", counts(pool));
        Lease<String> lease = pool.lease(Duration.ZERO);
        expect("no second lease", "NoSuchElementException: Timeout waiting for idle object", result(() -> pool.lease(Duration.ZERO)));
        expect("nor one with the configured wait", "NoSuchElementException: Timeout waiting for idle object", result(pool::lease));
        lease.close();
        String other = pool.borrowObject();
        lease.close();
        expect("a second close", "0 idle, 1 active, 1 created, 0 destroyed", counts(pool));
        expect("an invalidation after it", "IllegalStateException: The lease is over", ending(lease::invalidate));
        expect("none of it", "0 idle, 1 active, 1 created, 0 destroyed", counts(pool));
        pool.returnObject(other);
        expect("returns", 4L, pool.getReturnedCount());
        texts.asked();
        try (Lease<String> broken = pool.lease()) {
            broken.invalidate();
            expect("an invalidated lease", "IllegalStateException: The lease is over", result(broken::get));
            expect("a second invalidation", "IllegalStateException: The lease is over", ending(broken::invalidate));
        }
        expect("the close has no effect", "activate destroy", texts.asked());
        expect("invalidated", "0 idle, 0 active, 1 created, 1 destroyed", counts(pool));
        pool.close();
        expect("a lease of a closed pool", "IllegalStateException: Pool not open", result(pool::lease));
        expect("swallowed", List.of(), pool.noted);
        write(pool);
    }

    /** What the factory throws ends no lease twice, and costs no place. */
    private static void failingLeases() throws Exception {
        GenericObjectPoolConfig<String> config = config();
        config.setMaxTotal(1);
        Texts texts = new Texts();
        Noting pool = new Noting(texts, config, null);
        texts.makes = new IOException("make");
        expect("a lease whose make fails", "IOException: make", result(pool::lease));
        texts.makes = null;
        Lease<String> broken = pool.lease();
        texts.passivates = new IOException("passivate");
        expect("a close whose passivation fails", "done", ending(broken::close));
        expect("it is swallowed", "passivate", pool.noted.get(0).getMessage());
        for (Throwable failure : List.of(new IOException("destroy"), new StackOverflowError("destroy"))) {
            texts.destroys = null;
            Lease<String> lease = pool.lease();
            texts.destroys = failure;
            expect("an invalidation that fails", failure.getClass().getSimpleName() + ": destroy", ending(lease::invalidate));
            expect("its lease", "IllegalStateException: The lease is over", result(lease::get));
            expect("its close", "done", ending(lease::close));
        }
        texts.destroys = null;
        Lease<String> full = pool.lease();
        texts.passivates = new StackOverflowError("passivate");
        expect("a close that ends in an error", "StackOverflowError: passivate", ending(full::close));
        expect("its second close", "done", ending(full::close));
        expect("no place is lost", "0 idle, 0 active, 5 created, 5 destroyed", counts(pool));
        pool.close();
        write(pool);
    }

    /** A pool whose next return or invalidation finds no memory, if it is told so. */
    private static final class Poor extends ZuphinkaPool<String> {
        private boolean isPoor;

        Poor() {
            super(new Texts(), config());
        }

        private void allocate() {
            if (isPoor) {
                isPoor = false;
                throw new OutOfMemoryError("heap");
            }
        }

        @Override
        public void returnObject(String text) {
            allocate();
            super.returnObject(text);
        }

        @Override
        public void invalidateObject(String text) throws Exception {
            allocate();
            super.invalidateObject(text);
        }
    }

    /** A lease whose end finds no memory is not over, and is ended later. */
    private static void leasesWithoutMemory() throws Exception {
        Poor pool = new Poor();
        Lease<String> lease = pool.lease();
        pool.isPoor = true;
        expect("a close without memory", "OutOfMemoryError: heap", ending(lease::close));
        expect("its object", "text 0", result(lease::get));
        expect("a later close", "done", ending(lease::close));
        expect("after it", "1 idle, 0 active, 1 created, 0 destroyed", counts(pool));
        lease = pool.lease();
        pool.isPoor = true;
        expect("an invalidation without memory", "OutOfMemoryError: heap", ending(lease::invalidate));
        expect("a later one", "done", ending(lease::invalidate));
        expect("after that", "0 idle, 0 active, 1 created, 1 destroyed", counts(pool));
        pool.close();
    }

    /** Of the threads that end a lease, one does. */
    private static void leasesOfThreads() throws Exception {
        Noting pool = new Noting(new Texts(), config(), null);
        for (int round = 0; round < 100; round++) {
            Lease<String> lease = pool.lease();
            Lease<String> other = pool.lease();
            List<FutureTask<Object>> ends = List.of(begun(() -> ending(lease::close)), begun(() -> ending(lease::close)));
            expect("both closes", List.of("done", "done"), ends.stream().map(Calls::within).collect(Collectors.toList()));
            other.close();
        }
        expect("loans and returns", "200 200", pool.getBorrowedCount() + " " + pool.getReturnedCount());
        pool.close();
        write(pool);
    }

    private static String message(Act act) {
        try {
            act.run();
            return "none";
        } catch (Exception e) {
            return e.getMessage().replaceFirst("waited ([0-9]+) ms", "waited");
        }
    }

    /** A borrow that gets no object says of which pool, how long it waited, and what there was. */
    private static void messages() throws Exception {
        GenericObjectPoolConfig<String> config = config();
        config.setMaxTotal(2);
        config.setMaxWait(Duration.ofMillis(20));
        config.setJmxNamePrefix("orders");
        ZuphinkaPool<String> pool = new ZuphinkaPool<>(new Texts(), config);
        pool.borrowObject();
        String lent = pool.borrowObject();
        String timeout = "Timeout waiting for idle object: pool orders, limit %d ms, waited, lent 2, idle 0, waiting %d, maxTotal 2";
        expect("a timeout", String.format(timeout, 20, 0), message(pool::borrowObject));
        expect("one of an own limit", String.format(timeout, 5, 0), message(() -> pool.borrowObject(5)));
        expect("one without a wait", String.format(timeout, 0, 0), message(() -> pool.borrowObject(Duration.ZERO)));
        whileWaiting(pool, 1, () -> pool.borrowObject(-1), () -> {
            expect("one beside another", String.format(timeout, 5, 1), message(() -> pool.borrowObject(5)));
            pool.returnObject(lent);
        });
        String[] numbers = result(() -> {
            try {
                return pool.borrowObject(30);
            } catch (NoSuchElementException e) {
                return e.getMessage();
            }
        }).toString().split("waited | ms, lent");
        expect("it waited as long as it may", true, Long.parseLong(numbers[1]) >= 30);
        pool.setBlockWhenExhausted(false);
        expect("no wait", "Pool exhausted: pool orders, lent 2, idle 0, waiting 0, maxTotal 2", message(pool::borrowObject));
        expect("the pool", "ZuphinkaPool[pool orders, lent 2, reserved 0, idle 0, waiting 0, maxTotal 2]", pool.toString());
        String counts = pool.getCounts().toString();
        expect("its counts", true, counts.matches("Counts\\[steps [0-9]+, idle 0, lent 2, reserved 0, created 2, destroyed 0, .*, room [0-9]+]"));
        pool.close();
        expect("a closed one", true, pool.toString().endsWith("maxTotal 2, closed]"));
        ZuphinkaPool<String> named = new ZuphinkaPool<>(new Texts());
        expect("the name of its MBean", true, named.toString().startsWith("ZuphinkaPool[pool " + named.getJmxName() + ", lent 0"));
        named.close();
        ZuphinkaPool<String> nameless = new ZuphinkaPool<>(new Texts(), config());
        expect("without one, the class of its factory", true, nameless.toString().startsWith("ZuphinkaPool[pool of Calls$Texts, lent 0"));
        nameless.close();
    }

    private static void limits() throws Exception {
        GenericObjectPoolConfig<String> config = config();
        config.setMaxTotal(1);
        config.setMaxWait(Duration.ofMillis(60));
        Noting pool = new Noting(new Texts(), config, null);
        String lent = pool.borrowObject();
        long begun = System.nanoTime();
        expect("a wait that ends", "NoSuchElementException: Timeout waiting for idle object", result(pool::borrowObject));
        expect("it took its time", true, System.nanoTime() - begun >= 60_000_000L);
        expect("an own limit", "NoSuchElementException: Timeout waiting for idle object", result(() -> pool.borrowObject(5)));
        begun = System.nanoTime();
        expect("a longer one", "NoSuchElementException: Timeout waiting for idle object", result(() -> pool.borrowObject(150)));
        expect("it took longer", true, System.nanoTime() - begun >= 150_000_000L);
        expect("no more", "0 idle, 1 active, 1 created, 0 destroyed", counts(pool));
        Thread.currentThread().interrupt();
        expect("interrupted", "InterruptedException: null", result(() -> pool.borrowObject(Duration.ofMillis(50))));
        Thread.currentThread().interrupt();
        expect("interrupted without a wait", "InterruptedException: null", result(() -> pool.borrowObject(Duration.ZERO)));
        expect("it is not interrupted any more", false, Thread.interrupted());
        expect("nobody waits", 0, pool.getNumWaiters());
        List<Object> served = whileWaiting(pool, 1, () -> pool.borrowObject(-1), () -> {
            Thread.sleep(100);
            pool.returnObject(lent);
        });
        expect("a wait without a limit", List.of(lent), served);
        pool.returnObject(lent);
        pool.close();
        config.setMaxWait(Duration.ZERO);
        Noting hasty = new Noting(new Texts(), config, null);
        hasty.borrowObject();
        expect("no time", "NoSuchElementException: Timeout waiting for idle object", result(hasty::borrowObject));
        long asked = System.nanoTime();
        expect("an own time", "NoSuchElementException: Timeout waiting for idle object", result(() -> hasty.borrowObject(100)));
        expect("it counts alone", true, System.nanoTime() - asked >= 100_000_000L);
        hasty.close();
        write(hasty);
        config.setBlockWhenExhausted(false);
        Noting other = new Noting(new Texts(), config, null);
        other.borrowObject();
        expect("no wait", "NoSuchElementException: Pool exhausted", result(other::borrowObject));
        other.close();
        write(other);
        config.setBlockWhenExhausted(true);
        config.setMaxWait(Duration.ofMillis(-1));
        Texts texts = new Texts();
        Noting endless = new Noting(texts, config, null);
        String first = endless.borrowObject();
        expect("a return wakes", List.of(first), whileWaiting(endless, 1, endless::borrowObject, () -> endless.returnObject(first)));
        List<Object> second = whileWaiting(endless, 1, endless::borrowObject, () -> endless.invalidateObject(first));
        expect("a destruction wakes", List.of("text 1"), second);
        texts.passivates = new IOException("passivate");
        List<Object> third = whileWaiting(endless, 1, endless::borrowObject, () -> endless.returnObject((String) second.get(0)));
        expect("a return that fails wakes", List.of("text 2"), third);
        String closed = "IllegalStateException: Pool not open from The pool was closed";
        expect("a close wakes", List.of(closed, closed), whileWaiting(endless, 2, endless::borrowObject, endless::close));
        write(endless);
    }

    /** No wait ends before its time, wherever in a millisecond it begins. */
    private static void wholeWaits() throws Exception {
        GenericObjectPoolConfig<String> config = config();
        config.setMaxTotal(1);
        config.setMaxWait(Duration.ofMillis(2));
        Noting pool = new Noting(new Texts(), config, null);
        pool.borrowObject();
        long shortest = Long.MAX_VALUE;
        for (int wait = 0; wait < 50; wait++) {
            long begun = System.nanoTime();
            result(pool::borrowObject);
            shortest = Math.min(shortest, System.nanoTime() - begun);
        }
        expect("the shortest of many waits, " + shortest + " ns", true, shortest >= 2_000_000);
        pool.close();
        write(pool);
    }

    private static void times() throws Exception {
        GenericObjectPoolConfig<String> config = config();
        config.setMaxTotal(1);
        config.setMaxWait(Duration.ofMillis(100));
        Texts texts = new Texts();
        texts.makeMillis = 300;
        Noting pool = new Noting(texts, config, null);
        String lent = pool.borrowObject();
        expect("a make counts", true, pool.getMaxBorrowWaitTimeMillis() >= 300 && pool.getMeanBorrowWaitTimeMillis() >= 300);
        until(() -> {
            pool.returnObject(lent);
            pool.borrowObject();
            return pool.getMeanBorrowWaitTimeMillis() < 300;
        });
        expect("objects at once", true, pool.getMeanBorrowWaitTimeMillis() < 300);
        List<Long> before = List.of(pool.getMaxBorrowWaitTimeMillis(), pool.getMeanBorrowWaitTimeMillis());
        result(pool::borrowObject);
        expect("a borrow that fails does not count", before, List.of(pool.getMaxBorrowWaitTimeMillis(), pool.getMeanBorrowWaitTimeMillis()));
        whileWaiting(pool, 1, () -> pool.borrowObject(-1), () -> {
            Thread.sleep(before.get(0) + 50);
            pool.returnObject(lent);
        });
        expect("a wait counts", true, pool.getMaxBorrowWaitTimeMillis() >= before.get(0) + 50);
        pool.close();
        write(pool);
    }

    private static void failures() throws Exception {
        GenericObjectPoolConfig<String> config = config();
        config.setMaxTotal(2);
        config.setTestOnBorrow(true);
        config.setTestOnReturn(true);
        config.setTestOnCreate(true);
        Texts texts = new Texts();
        Noting pool = new Noting(texts, config, null);
        texts.makes = new IOException("make");
        expect("a make that fails", "IOException: make", result(pool::borrowObject));
        expect("an add whose make fails", "IOException: make", ending(pool::addObject));
        texts.makes = null;
        texts.validates = new IllegalArgumentException("test");
        expect("a new object whose test throws", "NoSuchElementException: Unable to validate object from test", result(pool::borrowObject));
        texts.validates = null;
        texts.isInvalid = true;
        expect("a new object that is invalid", "NoSuchElementException: Unable to validate object", result(pool::borrowObject));
        texts.isInvalid = false;
        texts.activates = new IOException("activate");
        expect("a new object whose activation fails", "NoSuchElementException: Unable to activate object from activate", result(pool::borrowObject));
        texts.activates = null;
        expect("all places are free", "0 idle, 0 active, 5 created, 5 destroyed", counts(pool));
        String lent = pool.borrowObject();
        texts.passivates = new IOException("passivate");
        pool.returnObject(lent);
        expect("a return whose passivation fails", "0 idle, 0 active, 6 created, 6 destroyed", counts(pool));
        expect("it is swallowed", "passivate", pool.noted.get(pool.noted.size() - 1).getMessage());
        expect("an add whose passivation fails", "IOException: passivate", ending(pool::addObject));
        texts.passivates = null;
        lent = pool.borrowObject();
        texts.validates = new IllegalArgumentException("test");
        pool.returnObject(lent);
        expect("a return whose test throws", "test", pool.noted.get(pool.noted.size() - 1).getMessage());
        expect("an add whose test throws", "IllegalArgumentException: test", ending(pool::addObject));
        texts.validates = null;
        lent = pool.borrowObject();
        texts.validates = new StackOverflowError("test");
        String returned = lent;
        expect("a return whose test ends in an error", "StackOverflowError: test", ending(() -> pool.returnObject(returned)));
        texts.validates = null;
        lent = pool.borrowObject();
        texts.destroys = new IOException("destroy");
        String broken = lent;
        expect("a destruction that fails", "IOException: destroy", ending(() -> pool.invalidateObject(broken)));
        pool.addObject();
        pool.clear();
        expect("a clear whose destruction fails", "destroy", pool.noted.get(pool.noted.size() - 1).getMessage());
        texts.destroys = new StackOverflowError("destroy");
        String last = pool.borrowObject();
        expect("a destruction that ends in an error", "StackOverflowError: destroy", ending(() -> pool.invalidateObject(last)));
        texts.destroys = null;
        texts.isInvalid = true;
        pool.addObject();
        expect("no place is lost", "0 idle, 0 active", counts(pool).substring(0, 16));
        pool.close();
        write(pool);
    }

    /** Failures of one object are told in the order in which they came, except the first error, which is thrown. */
    private static void orderOfFailures() throws Exception {
        GenericObjectPoolConfig<String> config = config();
        config.setTestWhileIdle(true);
        Texts texts = new Texts();
        Noting pool = new Noting(texts, config, null);
        String lent = pool.borrowObject();
        texts.passivates = new IOException("passivate");
        texts.destroys = new IOException("destroy");
        pool.returnObject(lent);
        expect("failures of a return", List.of(texts.passivates, texts.destroys), pool.noted);
        StackOverflowError error = new StackOverflowError("error");
        for (boolean isFirst : new boolean[] {false, true}) {
            texts.passivates = null;
            String other = pool.borrowObject();
            texts.passivates = isFirst ? error : new IOException("passivate");
            texts.destroys = isFirst ? new IOException("destroy") : error;
            pool.noted.clear();
            expect("a return that ends in an error", "StackOverflowError: error", ending(() -> pool.returnObject(other)));
            expect("its other failure", List.of(isFirst ? texts.destroys : texts.passivates), pool.noted);
        }
        texts.passivates = null;
        pool.addObject();
        pool.noted.clear();
        texts.validates = new IllegalArgumentException("test");
        pool.evict();
        expect("failures of an idle test", List.of(texts.validates, texts.destroys), pool.noted);
        pool.close();
        write(pool);
    }

    private static void upkeep() throws Exception {
        GenericObjectPoolConfig<String> config = config();
        config.setMinIdle(2);
        config.setTestWhileIdle(true);
        Texts texts = new Texts();
        Noting pool = new Noting(texts, config, null);
        pool.maintain();
        expect("minIdle", "2 idle, 0 active, 2 created, 0 destroyed", counts(pool));
        texts.isInvalid = true;
        pool.evict();
        expect("evicted", 2L, pool.getDestroyedByEvictorCount());
        texts.isInvalid = false;
        pool.close();
        pool.close();
        expect("closed for maintenance", "IllegalStateException: Pool not open", ending(pool::maintain));
        expect("a fill of a closed pool", "done", ending(pool::preparePool));
        write(pool);
        config.setTestOnCreate(true);
        texts = new Texts();
        texts.isInvalid = true;
        Noting invalid = new Noting(texts, config, null);
        invalid.preparePool();
        expect("a fill that fails its test", "0 idle, 0 active, 1 created, 1 destroyed", counts(invalid));
        texts.isInvalid = false;
        invalid.preparePool();
        expect("a fill after it", "2 idle, 0 active, 3 created, 1 destroyed", counts(invalid));
        invalid.close();
        write(invalid);
        config.setTestOnCreate(false);
        config.setTimeBetweenEvictionRuns(Duration.ofMillis(5));
        Noting kept = new Noting(new Texts(), config, null);
        for (int tries = 0; kept.getNumIdle() < 2 && tries < 2_000; tries++) {
            Thread.sleep(5);
        }
        expect("maintained by a thread", 2, kept.getNumIdle());
        kept.close();
        config.setTimeBetweenEvictionRuns(Duration.ofHours(1));
        new Noting(new Texts(), config, null).close();
        boolean isOver = Thread.getAllStackTraces().keySet().stream().noneMatch(thread -> thread.getName().equals("zuphinka-maintenance"));
        expect("the threads end with their pools", true, isOver);
    }

    /** A close lets a call of the factory end that the maintenance thread makes, and then the thread ends. */
    private static void closedDuringMaintenance() throws Exception {
        GenericObjectPoolConfig<String> config = config();
        config.setMinIdle(1);
        config.setTimeBetweenEvictionRuns(Duration.ofMillis(1));
        config.setEvictorShutdownTimeout(Duration.ofMillis(1));
        CompletableFuture<Thread> begun = new CompletableFuture<>();
        CountDownLatch closed = new CountDownLatch(1);
        CompletableFuture<Object> awaited = new CompletableFuture<>();
        ZuphinkaPool<String> pool = new ZuphinkaPool<>(new BasePooledObjectFactory<>() {
            @Override
            public String create() {
                begun.complete(Thread.currentThread());
                awaited.complete(result(() -> closed.await(LONGEST_MILLIS, TimeUnit.MILLISECONDS)));
                return "text";
            }

            @Override
            public PooledObject<String> wrap(String text) {
                return new DefaultPooledObject<>(text);
            }
        }, config);
        Thread thread = begun.get(LONGEST_MILLIS, TimeUnit.MILLISECONDS);
        pool.close();
        closed.countDown();
        expect("a make during a close is not interrupted", true, awaited.get(LONGEST_MILLIS, TimeUnit.MILLISECONDS));
        thread.join(LONGEST_MILLIS);
        expect("its thread ends", false, thread.isAlive());
        expect("what it made is destroyed", "0 idle, 0 active, 1 created, 1 destroyed", counts(pool));
        config.setJmxEnabled(true);
        for (long seconds : new long[] {Long.MAX_VALUE, Long.MIN_VALUE}) {
            config.setEvictorShutdownTimeout(Duration.ofSeconds(seconds));
            ZuphinkaPool<String> other = new ZuphinkaPool<>(new Texts(), config);
            expect("a close with " + seconds + " seconds for its thread", "done", ending(other::close));
            expect("its MBean is registered", false, ManagementFactory.getPlatformMBeanServer().isRegistered(other.getJmxName()));
        }
    }

    /** A factory whose texts a call makes. */
    private static final class Called extends BasePooledObjectFactory<String> {
        private final Callable<String> making;

        Called(Callable<String> making) {
            this.making = making;
        }

        @Override
        public String create() throws Exception {
            return making.call();
        }

        @Override
        public PooledObject<String> wrap(String text) {
            return new DefaultPooledObject<>(text);
        }
    }

    /** A close also waits for the round of a maintenance thread that another one has replaced. */
    private static void closedAfterReplacement() throws Exception {
        GenericObjectPoolConfig<String> config = config();
        config.setMinIdle(1);
        config.setTimeBetweenEvictionRuns(Duration.ofMillis(1));
        config.setEvictorShutdownTimeout(Duration.ofMillis(LONGEST_MILLIS));
        CompletableFuture<Thread> begun = new CompletableFuture<>();
        CountDownLatch mayGoOn = new CountDownLatch(1);
        ZuphinkaPool<String> pool = new ZuphinkaPool<>(new Called(() -> {
            begun.complete(Thread.currentThread());
            mayGoOn.await();
            return "text";
        }), config);
        Thread replaced = begun.get(LONGEST_MILLIS, TimeUnit.MILLISECONDS);
        pool.setTimeBetweenEvictionRuns(Duration.ofHours(1));
        FutureTask<Object> closing = begun(() -> {
            pool.close();
            return replaced.isAlive();
        });
        expect("a close during the round of a replaced thread", "TimeoutException: null", result(() -> closing.get(300, TimeUnit.MILLISECONDS)));
        mayGoOn.countDown();
        expect("the thread lives after the close", false, within(closing));
    }

    /** A maintenance thread has the context's class loader of the thread that made the pool, while it maintains that. */
    private static void contextOfMaintenance() throws Exception {
        GenericObjectPoolConfig<String> config = config();
        config.setMinIdle(1);
        CompletableFuture<Thread> maintaining = new CompletableFuture<>();
        CompletableFuture<ClassLoader> found = new CompletableFuture<>();
        Called factory = new Called(() -> {
            maintaining.complete(Thread.currentThread());
            found.complete(Thread.currentThread().getContextClassLoader());
            return "text";
        });
        ClassLoader context = new ClassLoader() {};
        ClassLoader usual = Thread.currentThread().getContextClassLoader();
        Thread.currentThread().setContextClassLoader(context);
        ZuphinkaPool<String> pool = new ZuphinkaPool<>(factory, config);
        Thread.currentThread().setContextClassLoader(usual);
        pool.setTimeBetweenEvictionRuns(Duration.ofMillis(1));
        expect("the class loader of a round", context, found.get(LONGEST_MILLIS, TimeUnit.MILLISECONDS));
        pool.close();
        expect("that of the thread after it", null, maintaining.get().getContextClassLoader());
    }

    /** A pool whose constructor takes longer than the first pauses of its maintenance thread. */
    private static final class Slow extends ZuphinkaPool<String> {
        private static final AtomicInteger EARLY = new AtomicInteger();
        private final CountDownLatch noted = new CountDownLatch(1);
        private volatile boolean isComplete;

        Slow(Texts texts, GenericObjectPoolConfig<String> config) throws InterruptedException {
            super(texts, config);
            Thread.sleep(200);
            isComplete = true;
        }

        @Override
        protected void swallowed(Exception failure) {
            if (!isComplete) {
                EARLY.incrementAndGet();
            }
            noted.countDown();
        }
    }

    /** What receives failures runs only once the constructor of its class has ended. */
    private static void construction() throws Exception {
        GenericObjectPoolConfig<String> config = config();
        config.setMinIdle(1);
        config.setTimeBetweenEvictionRuns(Duration.ofMillis(1));
        Texts texts = new Texts();
        texts.makes = new IOException("make");
        Slow pool = new Slow(texts, config);
        expect("a failure of the maintenance thread", "done", within(begun(() -> {
            pool.noted.await();
            return "done";
        })));
        expect("before the constructor ended", 0, Slow.EARLY.get());
        pool.close();
    }

    /** A pool whose constructor waits for a return in another thread. */
    private static final class Warmed extends ZuphinkaPool<String> {
        private final Object returned;

        Warmed(Texts texts) {
            super(texts, config());
            returned = within(begun(() -> ending(() -> returnObject(borrowObject()))));
        }
    }

    /** A failure of another thread does not wait for the constructor, which may wait for that thread. */
    private static void constructionBesideCalls() {
        Texts texts = new Texts();
        texts.passivates = new IOException("passivate");
        Warmed pool = new Warmed(texts);
        expect("a return that fails and that a constructor waits for", "done", pool.returned);
        expect("its object", "0 idle, 0 active, 1 created, 1 destroyed", counts(pool));
        pool.close();
    }

    private static void abandonment() throws Exception {
        GenericObjectPoolConfig<String> config = config();
        config.setMaxTotal(1);
        config.setBlockWhenExhausted(false);
        AbandonedConfig abandoned = new AbandonedConfig();
        abandoned.setRemoveAbandonedOnBorrow(true);
        abandoned.setRemoveAbandonedTimeout(Duration.ofMillis(20));
        Texts texts = new Texts();
        Noting pool = new Noting(texts, config, abandoned);
        String forgotten = pool.borrowObject();
        Thread.sleep(60);
        String other = pool.borrowObject();
        expect("another object", "text 1", other);
        expect("the forgotten one is destroyed", "make activate destroy ABANDONED make activate", texts.asked());
        pool.use(forgotten);
        pool.returnObject(forgotten);
        pool.invalidateObject(forgotten);
        pool.use(other);
        pool.returnObject(other);
        expect("after the holder's return", "1 idle, 0 active, 2 created, 1 destroyed", counts(pool));
        expect("nothing is destroyed twice", "passivate", texts.asked());
        pool.close();
        write(pool);
    }

    /** Notes what it destroys. While it destroys the first abandoned object, something else is done. */
    private static final class SlowEnds extends Plain {
        final Set<Object> destroyed = ConcurrentHashMap.newKeySet();
        private Act meanwhile;

        @Override
        public Object create() {
            return new Object();
        }

        @Override
        public void destroyObject(PooledObject<Object> pooled, DestroyMode mode) throws Exception {
            destroyed.add(pooled.getObject());
            if (mode == DestroyMode.ABANDONED && meanwhile != null) {
                Act once = meanwhile;
                meanwhile = null;
                once.run();
            }
        }
    }

    /** What shows something of objects that are abandoned after a time only if a call is quicker than that. */
    private interface InTime {
        /** Returns whether it was. */
        boolean show(Duration timeout) throws Exception;
    }

    /** Shows it, with more time each time until it does. */
    private static void inTime(InTime shown) throws Exception {
        Duration timeout = Duration.ofSeconds(1);
        while (!shown.show(timeout)) {
            timeout = timeout.multipliedBy(2);
        }
    }

    /** Makes a call, and returns whether it was quicker than a time. */
    private static boolean isQuicker(Duration timeout, Act call) throws Exception {
        long begun = System.nanoTime();
        call.run();
        return System.nanoTime() - begun < timeout.toNanos();
    }

    /** Lets a time pass, and a little more. */
    private static void pass(Duration time) throws InterruptedException {
        Thread.sleep(time.toMillis() + 50);
    }

    /** A borrow lends no object that another one has taken from it while it destroyed abandoned ones. */
    private static boolean slowDestruction(Duration timeout) throws Exception {
        GenericObjectPoolConfig<Object> config = new GenericObjectPoolConfig<>();
        config.setJmxEnabled(false);
        config.setMaxTotal(3);
        AbandonedConfig abandoned = new AbandonedConfig();
        abandoned.setRemoveAbandonedOnBorrow(true);
        abandoned.setRemoveAbandonedTimeout(timeout);
        SlowEnds factory = new SlowEnds();
        ZuphinkaPool<Object> pool = new ZuphinkaPool<>(factory, config, abandoned);
        List<Object> forgotten = List.of(pool.borrowObject(), pool.borrowObject());
        pool.addObject();
        pass(timeout);
        List<Object> others = new ArrayList<>();
        long[] meanwhile = new long[1];
        factory.meanwhile = () -> {
            pass(timeout);
            meanwhile[0] = System.nanoTime();
            others.add(within(begun(pool::borrowObject)));
        };
        Object lent = pool.borrowObject();
        if (System.nanoTime() - meanwhile[0] >= timeout.toNanos()) {
            return false;
        }
        expect("the forgotten objects are destroyed", true, factory.destroyed.containsAll(forgotten));
        expect("a destroyed object is lent", false, factory.destroyed.contains(lent));
        expect("two are lent", "0 idle, 2 active, 5 created, 3 destroyed", counts(pool));
        pool.returnObject(lent);
        pool.returnObject(others.get(0));
        pool.close();
        return true;
    }

    /** A lease whose object was reclaimed has the object still, and its end has no effect. */
    private static void abandonedLease() throws Exception {
        AbandonedConfig abandoned = new AbandonedConfig();
        abandoned.setRemoveAbandonedOnMaintenance(true);
        abandoned.setRemoveAbandonedTimeout(Duration.ofMillis(20));
        for (boolean isInvalidated : new boolean[] {false, true}) {
            Texts texts = new Texts();
            Noting pool = new Noting(texts, config(), abandoned);
            Lease<String> forgotten = pool.lease();
            Thread.sleep(60);
            pool.evict();
            expect("an abandoned lease", "text 0", forgotten.get());
            expect("its end", "done", ending(isInvalidated ? forgotten::invalidate : forgotten::close));
            expect("what it destroys", "make activate destroy ABANDONED", texts.asked());
            expect("its object", "IllegalStateException: The lease is over", result(forgotten::get));
            pool.close();
            write(pool);
        }
    }

    /** A use is noted only if the configuration tracks usage. */
    private static void uses() throws Exception {
        AbandonedConfig tracking = new AbandonedConfig();
        tracking.setUseUsageTracking(true);
        for (AbandonedConfig abandoned : Arrays.asList(null, new AbandonedConfig(), tracking)) {
            Noting pool = new Noting(new Texts(), config(), abandoned);
            String lent = pool.borrowObject();
            long before = pool.getCounts().steps();
            pool.use(lent);
            pool.use(new String("another"));
            expect("steps of a use", abandoned == tracking ? 1L : 0L, pool.getCounts().steps() - before);
            pool.close();
            write(pool);
        }
    }

    /** A time that is no whole number of milliseconds counts as the next one. */
    private static void shortTimes() {
        Duration half = Duration.ofNanos(500_000);
        GenericObjectPoolConfig<String> config = config();
        config.setMinEvictableIdleTime(half);
        config.setSoftMinEvictableIdleTime(Duration.ofNanos(1_000_001));
        config.setMaxWait(half);
        AbandonedConfig abandoned = new AbandonedConfig();
        abandoned.setRemoveAbandonedTimeout(half);
        Noting pool = new Noting(new Texts(), config, abandoned);
        List<String> times = pool.getSettingsText().lines().filter(line -> line.contains("Millis")).collect(Collectors.toList());
        expect("short times", List.of("maxWaitMillis = 1", "minEvictableIdleMillis = 1", "softMinEvictableIdleMillis = 2",
                "removeAbandonedTimeoutMillis = 1"), times);
        pool.close();
        config.setMinEvictableIdleTime(Duration.ZERO);
        config.setSoftMinEvictableIdleTime(Duration.ofMillis(-1));
        config.setMaxWait(Duration.ofSeconds(Long.MAX_VALUE, 999_999_999));
        Noting other = new Noting(new Texts(), config, null);
        times = other.getSettingsText().lines().filter(line -> line.contains("Millis")).collect(Collectors.toList());
        expect("none, never and for ever", List.of("maxWaitMillis = 9007199254740992", "minEvictableIdleMillis = 0",
                "softMinEvictableIdleMillis = -1"), times);
        other.close();
    }

    /** Makes plain objects. No method sees their wrappers once they are made. */
    static class Plain extends BasePooledObjectFactory<Object> {
        @Override
        public Object create() {
            return new String("a text");
        }

        @Override
        public PooledObject<Object> wrap(Object object) {
            return new DefaultPooledObject<>(object);
        }
    }

    /** The same with wrappers that count what they are told. */
    static final class Counted extends Plain {
        int allocated;
        int deallocated;

        @Override
        public PooledObject<Object> wrap(Object object) {
            return new DefaultPooledObject<>(object) {
                @Override
                public boolean allocate() {
                    allocated++;
                    return super.allocate();
                }

                @Override
                public boolean deallocate() {
                    deallocated++;
                    return super.deallocate();
                }
            };
        }
    }

    /** The same, where a method sees the wrappers later. */
    static class Seeing extends Plain {
        final List<String> seen = new ArrayList<>();

        final boolean see(PooledObject<Object> pooled) {
            boolean isInOrder = pooled.getLastBorrowInstant().isBefore(pooled.getLastReturnInstant());
            return seen.add(pooled.getBorrowedCount() + " " + isInOrder);
        }
    }

    /** Returns factories of which one method each sees the wrappers. */
    private static List<Seeing> seeing() {
        return List.of(
                new Seeing() {
                    @Override
                    public void activateObject(PooledObject<Object> pooled) {
                        see(pooled);
                    }
                },
                new Seeing() {
                    @Override
                    public void passivateObject(PooledObject<Object> pooled) {
                        see(pooled);
                    }
                },
                new Seeing() {
                    @Override
                    public void destroyObject(PooledObject<Object> pooled) {
                        see(pooled);
                    }
                },
                new Seeing() {
                    @Override
                    public void destroyObject(PooledObject<Object> pooled, DestroyMode mode) {
                        see(pooled);
                    }
                },
                new Seeing() {
                    @Override
                    public boolean validateObject(PooledObject<Object> pooled) {
                        return see(pooled);
                    }
                });
    }

    /** The time of a call: from its begin to its end, in milliseconds. */
    private static final class Span {
        private final long begun = System.currentTimeMillis();
        private long ended;

        Span end() throws InterruptedException {
            ended = System.currentTimeMillis();
            Thread.sleep(2);
            return this;
        }

        boolean has(long time) {
            return begun <= time && time <= ended;
        }
    }

    /** Returns what is known of the one object of a pool while it is lent and returned, and whether its times are those of the calls. */
    private static List<String> story(ObjectPool<Object> pool, Callable<Set<DefaultPooledObjectInfo>> list) throws Exception {
        List<String> story = new ArrayList<>();
        Span made = new Span();
        pool.addObject();
        made.end();
        DefaultPooledObjectInfo info = list.call().iterator().next();
        story.add(known(info, made, made));
        Span returned = made;
        for (int loan = 0; loan < 3; loan++) {
            Span borrowed = new Span();
            Object lent = pool.borrowObject();
            story.add(known(info, borrowed.end(), returned));
            returned = new Span();
            pool.returnObject(lent);
            story.add(known(info, borrowed, returned.end()));
        }
        pool.invalidateObject(pool.borrowObject());
        story.add(info.getBorrowedCount() + " " + info);
        return story;
    }

    private static String known(DefaultPooledObjectInfo info, Span borrowed, Span returned) {
        boolean isInTime = borrowed.has(info.getLastBorrowTime()) && returned.has(info.getLastReturnTime());
        return info.getBorrowedCount() + " " + isInTime + " " + info;
    }

    private static void wrappers() throws Exception {
        GenericObjectPoolConfig<Object> config = new GenericObjectPoolConfig<>();
        config.setJmxEnabled(false);
        config.setTestWhileIdle(true);
        GenericObjectPool<Object> library = new GenericObjectPool<>(new Plain(), config);
        List<String> wanted = story(library, library::listAllObjects);
        library.close();
        Counted counted = new Counted();
        for (Plain factory : List.of(new Plain(), counted)) {
            ZuphinkaPool<Object> pool = new ZuphinkaPool<>(factory, config);
            expect("what is known over " + factory.getClass().getSimpleName(), wanted, story(pool, pool::listAllObjects));
            pool.close();
        }
        expect("wrappers are told", "4 3", counted.allocated + " " + counted.deallocated);
        for (Seeing factory : seeing()) {
            ZuphinkaPool<Object> pool = new ZuphinkaPool<>(factory, config);
            for (int loan = 0; loan < 3; loan++) {
                pool.returnObject(pool.borrowObject());
                Thread.sleep(1);
            }
            pool.evict();
            pool.close();
            expect("what a method sees of a wrapper last", "3 true", factory.seen.get(factory.seen.size() - 1));
        }
        logged(config);
        countedByThreads(config);
    }

    /** Notes the states of the wrappers that it tests and passivates. */
    private static final class Stating extends Plain {
        final List<PooledObjectState> seen = new ArrayList<>();

        @Override
        public boolean validateObject(PooledObject<Object> pooled) {
            return seen.add(pooled.getState());
        }

        @Override
        public void passivateObject(PooledObject<Object> pooled) {
            seen.add(pooled.getState());
        }
    }

    /** The states that a factory sees in a return and in an eviction run, which are others in the library. */
    private static void states() throws Exception {
        GenericObjectPoolConfig<Object> config = new GenericObjectPoolConfig<>();
        config.setJmxEnabled(false);
        config.setTestOnReturn(true);
        config.setTestWhileIdle(true);
        Stating ofLibrary = new Stating();
        GenericObjectPool<Object> library = new GenericObjectPool<>(ofLibrary, config);
        library.returnObject(library.borrowObject());
        library.evict();
        expect("states in the library", List.of(PooledObjectState.RETURNING, PooledObjectState.RETURNING, PooledObjectState.EVICTION,
                PooledObjectState.EVICTION), ofLibrary.seen);
        library.close();
        Stating own = new Stating();
        ZuphinkaPool<Object> pool = new ZuphinkaPool<>(own, config);
        pool.returnObject(pool.borrowObject());
        pool.evict();
        expect("states here", List.of(PooledObjectState.ALLOCATED, PooledObjectState.ALLOCATED, PooledObjectState.IDLE, PooledObjectState.IDLE), own.seen);
        pool.close();
    }

    /** Notes the states of the wrappers that it tests, and how often their objects were lent. */
    private static class Testing extends Plain {
        final List<String> seen = new ArrayList<>();

        @Override
        public boolean validateObject(PooledObject<Object> pooled) {
            return seen.add(pooled.getState() + " " + pooled.getBorrowedCount());
        }

        @Override
        public void destroyObject(PooledObject<Object> pooled) {
            // It sees the wrappers, which are told of their loans for that.
        }
    }

    /** Does so, and has work to activate an object. */
    private static final class Activating extends Testing {
        @Override
        public void activateObject(PooledObject<Object> pooled) {
            seen.add("activate");
        }
    }

    /** A test of testOnCreate sees an object that was never lent, and one of testOnBorrow one that is lent, as in the library. */
    private static void statesOfNew() throws Exception {
        GenericObjectPoolConfig<Object> config = new GenericObjectPoolConfig<>();
        config.setJmxEnabled(false);
        config.setTestOnCreate(true);
        for (boolean isTested : new boolean[] {false, true}) {
            config.setTestOnBorrow(isTested);
            for (List<Testing> both : List.of(List.<Testing>of(new Testing(), new Testing()), List.<Testing>of(new Activating(), new Activating()))) {
                GenericObjectPool<Object> library = new GenericObjectPool<>(both.get(0), config);
                ZuphinkaPool<Object> pool = new ZuphinkaPool<>(both.get(1), config);
                library.returnObject(library.borrowObject());
                pool.returnObject(pool.borrowObject());
                library.borrowObject();
                pool.borrowObject();
                expect("states that tests of new objects see", both.get(0).seen, both.get(1).seen);
                expect("the first of them", "IDLE 0", both.get(1).seen.get(0));
                expect("loans", 2L, pool.listAllObjects().iterator().next().getBorrowedCount());
                library.close();
                pool.close();
            }
        }
    }

    private static void logged(GenericObjectPoolConfig<Object> config) throws Exception {
        AbandonedConfig abandoned = new AbandonedConfig();
        StringWriter log = new StringWriter();
        abandoned.setRemoveAbandonedOnMaintenance(true);
        abandoned.setRemoveAbandonedTimeout(Duration.ZERO);
        abandoned.setLogAbandoned(true);
        abandoned.setLogWriter(new PrintWriter(log));
        ZuphinkaPool<Object> pool = new ZuphinkaPool<>(new Plain(), config, abandoned);
        pool.borrowObject();
        Thread.sleep(2);
        pool.evict();
        pool.close();
        expect("an abandoned object is logged", true, log.toString().contains("has not been returned to the pool"));
    }

    /** An object that says when it was last used, and counts how often it was asked. Meanwhile it may act. */
    private static final class Tracked implements TrackedUse {
        Instant used = Instant.EPOCH;
        Act act = () -> {};
        int asked;

        @Override
        public Instant getLastUsedInstant() {
            Instant answer = used;
            asked++;
            Act once = act;
            act = () -> {};
            ending(once);
            return answer;
        }

        @Override
        @Deprecated
        public long getLastUsed() {
            return used.toEpochMilli();
        }
    }

    /** Returns a pool of such objects, which are abandoned after a time. */
    private static ZuphinkaPool<Tracked> tracked(int maxTotal, Duration timeout) {
        GenericObjectPoolConfig<Tracked> config = new GenericObjectPoolConfig<>();
        config.setJmxEnabled(false);
        config.setMaxTotal(maxTotal);
        config.setMaxIdle(maxTotal);
        config.setBlockWhenExhausted(false);
        AbandonedConfig abandoned = new AbandonedConfig();
        abandoned.setRemoveAbandonedOnBorrow(true);
        abandoned.setRemoveAbandonedOnMaintenance(true);
        abandoned.setRemoveAbandonedTimeout(timeout);
        abandoned.setUseUsageTracking(true);
        return new ZuphinkaPool<>(new BasePooledObjectFactory<>() {
            @Override
            public Tracked create() {
                return new Tracked();
            }

            @Override
            public PooledObject<Tracked> wrap(Tracked tracked) {
                return new DefaultPooledObject<>(tracked);
            }
        }, config, abandoned, Journal.kept());
    }

    private static boolean trackedUse(Duration timeout) throws Exception {
        ZuphinkaPool<Tracked> pool = tracked(1, timeout);
        Tracked tracked = pool.borrowObject();
        pass(timeout);
        tracked.used = Instant.now();
        Object[] got = new Object[1];
        if (!isQuicker(timeout, () -> got[0] = result(pool::borrowObject))) {
            return false;
        }
        expect("an object that was used", "NoSuchElementException: Pool exhausted", got[0]);
        pass(timeout);
        expect("it is abandoned later", false, pool.borrowObject() == tracked);
        pool.close();
        write(pool);
        return true;
    }

    private static final List<UnaryOperator<Instant>> CLOCKS =
            List.of(now -> now.minusSeconds(3_600), now -> now.plusSeconds(3_600), now -> Instant.MIN);

    /** An answer that differs from the one before is a use, whatever the wall clock says meanwhile; and one that does not is none. */
    private static boolean setClock(UnaryOperator<Instant> clock, Duration timeout) throws Exception {
        ZuphinkaPool<Tracked> pool = tracked(1, timeout);
        Tracked tracked = pool.borrowObject();
        pass(timeout);
        tracked.used = clock.apply(Instant.now());
        if (!isQuicker(timeout, pool::evict)) {
            return false;
        }
        expect("an object that was used at " + tracked.used, "0 idle, 1 active, 1 created, 0 destroyed", counts(pool));
        pass(timeout);
        pool.evict();
        expect("it is abandoned later", "0 idle, 0 active, 1 created, 1 destroyed", counts(pool));
        pool.close();
        write(pool);
        return true;
    }

    /** A use by the account of an object counts for no later loan. Nor is it asked for if the pool knows a later use. */
    private static boolean earlierUse(Duration timeout) throws Exception {
        ZuphinkaPool<Tracked> pool = tracked(1, timeout);
        Tracked tracked = pool.borrowObject();
        Thread.sleep(5);
        tracked.used = Instant.now();
        pass(timeout);
        tracked.act = () -> {
            pool.returnObject(tracked);
            pool.borrowObject();
        };
        if (!isQuicker(timeout, pool::evict)) {
            return false;
        }
        expect("an object that is lent again meanwhile", "0 idle, 1 active, 1 created, 0 destroyed", counts(pool));
        pass(timeout);
        int asked = tracked.asked;
        boolean isQuick = isQuicker(timeout.dividedBy(4), () -> {
            pool.use(tracked);
            tracked.asked = asked;
            pool.evict();
        });
        if (!isQuick) {
            return false;
        }
        expect("one whose use was noted", "0 idle, 1 active, 1 created, 0 destroyed", counts(pool));
        expect("it is not asked", asked, tracked.asked);
        tracked.used = Instant.now();
        pool.returnObject(tracked);
        pool.borrowObject();
        pass(timeout);
        pool.evict();
        expect("one that was used in an earlier loan", "0 idle, 0 active, 1 created, 1 destroyed", counts(pool));
        pool.close();
        write(pool);
        return true;
    }

    /** A borrow that reclaims nothing asks no lent object. */
    private static void fewQuestions() throws Exception {
        ZuphinkaPool<Tracked> pool = tracked(10, Duration.ZERO);
        List<Tracked> lent = new ArrayList<>();
        while (lent.size() < 6) {
            lent.add(pool.borrowObject());
        }
        pool.addObject();
        pool.addObject();
        lent.forEach(tracked -> tracked.asked = 0);
        pool.returnObject(pool.borrowObject());
        expect("questions of a borrow beside idle objects", 0, lent.stream().mapToInt(tracked -> tracked.asked).sum());
        pool.clear();
        pool.returnObject(pool.borrowObject());
        expect("questions of a borrow with free places", 0, lent.stream().mapToInt(tracked -> tracked.asked).sum());
        while (pool.getNumActive() < 8) {
            pool.borrowObject();
        }
        pool.borrowObject();
        expect("questions of a borrow that reclaims", 6, lent.stream().mapToInt(tracked -> tracked.asked).sum());
        pool.close();
        write(pool);
    }

    /** An object that says when it was last used, which may take a while, and notes that it was asked. */
    private static final class SlowTeller implements TrackedUse {
        private final List<SlowTeller> asked;
        private Instant used = Instant.EPOCH;
        private long millis;

        SlowTeller(List<SlowTeller> asked) {
            this.asked = asked;
        }

        @Override
        public Instant getLastUsedInstant() {
            asked.add(this);
            ending(() -> Thread.sleep(millis));
            return used;
        }

        @Override
        @Deprecated
        public long getLastUsed() {
            return used.toEpochMilli();
        }
    }

    /** Returns a pool of such objects, which are abandoned after a time. */
    private static ZuphinkaPool<SlowTeller> slowTellers(List<SlowTeller> asked, Duration timeout) {
        GenericObjectPoolConfig<SlowTeller> config = new GenericObjectPoolConfig<>();
        config.setJmxEnabled(false);
        AbandonedConfig abandoned = new AbandonedConfig();
        abandoned.setRemoveAbandonedOnMaintenance(true);
        abandoned.setRemoveAbandonedTimeout(timeout);
        return new ZuphinkaPool<>(new BasePooledObjectFactory<>() {
            @Override
            public SlowTeller create() {
                return new SlowTeller(asked);
            }

            @Override
            public PooledObject<SlowTeller> wrap(SlowTeller teller) {
                return new DefaultPooledObject<>(teller);
            }
        }, config, abandoned, Journal.kept());
    }

    /** The uses count that objects report, also if the last one asked takes its time: the others are not abandoned meanwhile. */
    private static boolean slowReport(Duration timeout) throws Exception {
        long millis = timeout.toMillis();
        List<SlowTeller> asked = new ArrayList<>();
        ZuphinkaPool<SlowTeller> pool = slowTellers(asked, timeout);
        List<SlowTeller> lent = new ArrayList<>();
        while (lent.size() < 8) {
            lent.add(pool.borrowObject());
        }
        pass(timeout);
        lent.forEach(teller -> teller.used = Instant.now());
        asked.clear();
        if (!isQuicker(timeout, pool::evict)) {
            return false;
        }
        expect("objects that are asked", 8, asked.size());
        SlowTeller last = asked.get(asked.size() - 1);
        Thread.sleep(millis * 3 / 10);
        lent.stream().filter(teller -> teller != last).forEach(pool::returnObject);
        while (pool.getNumIdle() > 0) {
            pool.borrowObject();
        }
        Thread.sleep(millis * 3 / 4);
        lent.forEach(teller -> teller.used = Instant.now());
        last.millis = millis * 4 / 10;
        if (!isQuicker(timeout, pool::evict)) {
            return false;
        }
        expect("all are used", "0 idle, 8 active, 8 created, 0 destroyed", counts(pool));
        pool.close();
        write(pool);
        return true;
    }

    private static void countedByThreads(GenericObjectPoolConfig<Object> config) throws Exception {
        config.setMaxTotal(2);
        ZuphinkaPool<Object> pool = new ZuphinkaPool<>(new Plain(), config);
        List<Thread> threads = new ArrayList<>();
        for (int number = 0; number < 4; number++) {
            threads.add(new Thread(() -> ending(() -> {
                for (int round = 0; round < 2_000; round++) {
                    pool.returnObject(pool.borrowObject());
                }
            })));
        }
        threads.forEach(Thread::start);
        for (Thread thread : threads) {
            thread.join();
        }
        long counted = pool.listAllObjects().stream().mapToLong(DefaultPooledObjectInfo::getBorrowedCount).sum();
        expect("loans in four threads", List.of(8_000L, 8_000L, 8_000L), List.of(counted, pool.getBorrowedCount(), pool.getReturnedCount()));
        pool.close();
    }

    private static void refusals() {
        expect("no factory", "IllegalArgumentException: Factory may not be null", ending(() -> new ZuphinkaPool<String>(null).close()));
        expect("a limit of no entries", "IllegalArgumentException: journal limit: 0 is not from 1 to 4294967296",
                ending(() -> new ZuphinkaPool<>(new Texts(), config(), null, Journal.kept().limit(0)).close()));
    }

    private static void bean() throws Exception {
        MBeanServer server = ManagementFactory.getPlatformMBeanServer();
        ZuphinkaPool<String> pool = new ZuphinkaPool<>(new Texts());
        ZuphinkaPool<String> other = new ZuphinkaPool<>(new Texts());
        ObjectName name = pool.getJmxName();
        expect("the name", "org.apache.commons.pool2:name=pool,type=GenericObjectPool", name.getCanonicalName());
        expect("another name", "pool2", other.getJmxName().getKeyProperty("name"));
        GenericObjectPoolConfig<String> config = new GenericObjectPoolConfig<>();
        config.setJmxNamePrefix("mine");
        ZuphinkaPool<String> named = new ZuphinkaPool<>(new Texts(), config);
        expect("a name of the user's own", "mine", named.getJmxName().getKeyProperty("name"));
        config.setJmxNamePrefix("no=name,,");
        ZuphinkaPool<String> misnamed = new ZuphinkaPool<>(new Texts(), config);
        expect("a name that is none", "pool3", misnamed.getJmxName().getKeyProperty("name"));
        named.close();
        misnamed.close();
        pool.returnObject(pool.borrowObject());
        expect("an attribute", 1L, server.getAttribute(name, "BorrowedCount"));
        expect("a setting", 8, server.getAttribute(name, "MaxTotal"));
        expect("a mean", pool.getMeanBorrowWaitTimeMillis(), server.getAttribute(name, "MeanBorrowWaitTimeMillis"));
        String stack = (String) server.getAttribute(name, "CreationStackTrace");
        expect("the stack of its creation", true, stack.contains("at io.github.zuphinka.ZuphinkaPool.<init>(") && stack.contains("at Calls.bean(Calls.java:"));
        expect("all attributes", List.of("MeanActiveTimeMillis", "MeanIdleTimeMillis"), missingOf(server.getMBeanInfo(name).getAttributes()));
        CompositeData[] objects = (CompositeData[]) server.invoke(name, "listAllObjects", null, null);
        List<String> told = Arrays.stream(objects).map(object -> object.get("pooledObjectToString") + " " + object.get("borrowedCount"))
                .collect(Collectors.toList());
        expect("its objects and their loans", List.of("text 0 1"), told);
        other.close();
        pool.close();
        expect("unregistered", false, server.isRegistered(name));
        ZuphinkaPool<String> next = new ZuphinkaPool<>(new Texts());
        expect("the free name", name, next.getJmxName());
        pool.close();
        expect("a second close of the pool that had it", true, server.isRegistered(name));
        next.close();
    }

    /** A closed pool says so, also if its journal has no room and borrows reclaim. */
    private static void closedAndFull() {
        AbandonedConfig abandoned = new AbandonedConfig();
        abandoned.setRemoveAbandonedOnBorrow(true);
        for (AbandonedConfig some : Arrays.asList(null, abandoned)) {
            ZuphinkaPool<String> pool = new ZuphinkaPool<>(new Texts(), config(), some, Journal.kept().limit(101));
            Object ending;
            do {
                ending = ending(() -> pool.returnObject(pool.borrowObject()));
            } while (ending.equals("done"));
            expect("a full journal", "IllegalStateException: Journal full", ending);
            pool.close();
            while (ending(pool::clear).equals("done")) {
                // One more entry, since no object is idle.
            }
            expect("a clear without room", "IllegalStateException: Journal full", ending(pool::clear));
            String closed = "IllegalStateException: Pool not open";
            expect("a borrow from a closed pool", closed, result(pool::borrowObject));
            expect("an add to a closed pool", closed, ending(pool::addObject));
            expect("a maintenance of a closed pool", closed, ending(pool::maintain));
            expect("a fill of a closed pool", "done", ending(pool::preparePool));
        }
    }

    /** Borrows objects until there is none, and returns how many, or what the constructor threw. */
    private static Object lentBy(Journal journal, AbandonedConfig abandoned) {
        GenericObjectPoolConfig<String> config = config();
        config.setBlockWhenExhausted(false);
        return result(() -> {
            ZuphinkaPool<String> pool = new ZuphinkaPool<>(new Texts(), config, abandoned, journal);
            int lent = 0;
            while (!result(pool::borrowObject).toString().contains("Exception")) {
                lent++;
            }
            return lent;
        });
    }

    /** A journal whose limit is reached before all objects are lent is refused. */
    private static void smallJournals() {
        AbandonedConfig abandoned = new AbandonedConfig();
        abandoned.setRemoveAbandonedOnBorrow(true);
        expect("a kept one", 8, lentBy(Journal.kept().limit(49), null));
        expect("a stored one", 8, lentBy(whenDue(segment -> {}).limit(35), null));
        expect("a dropped one", 8, lentBy(Journal.dropped().limit(35), null));
        expect("one whose borrows reclaim", 8, lentBy(Journal.kept().limit(57), abandoned));
        String small = "IllegalArgumentException: journal limit: %d is reached before all objects are lent (maxTotal 8)";
        expect("too small a kept one", String.format(small, 48), lentBy(Journal.kept().limit(48), null));
        expect("too small a stored one", String.format(small, 34), lentBy(whenDue(segment -> {}).limit(34), null));
        expect("too small a dropped one", String.format(small, 34), lentBy(Journal.dropped().limit(34), null));
        expect("too small a one whose borrows reclaim", String.format(small, 56), lentBy(Journal.kept().limit(56), abandoned));
        expect("the smallest", String.format(small, 1), lentBy(Journal.kept().limit(1), null));
        GenericObjectPoolConfig<String> many = config();
        many.setMaxTotal(Integer.MAX_VALUE);
        expect("any number of objects, without a journal", "done", ending(() -> new ZuphinkaPool<>(new Texts(), many).close()));
        many.setMaxTotal(-1);
        expect("any number of objects", "done", ending(() -> new ZuphinkaPool<>(new Texts(), many, null, Journal.kept().limit(7)).close()));
        expect("no room for one", "IllegalArgumentException: journal limit: 6 is reached before all objects are lent (maxTotal -1)",
                ending(() -> new ZuphinkaPool<>(new Texts(), many, null, Journal.kept().limit(6)).close()));
        many.setMaxTotal(0);
        expect("no objects", "done", ending(() -> new ZuphinkaPool<>(new Texts(), many, null, Journal.kept().limit(1)).close()));
    }

    /** Returns the attributes of Commons Pool's MBean that are not among these, in order. */
    private static List<String> missingOf(MBeanAttributeInfo[] attributes) {
        List<String> names = Arrays.stream(attributes).map(MBeanAttributeInfo::getName).collect(Collectors.toList());
        return Arrays.stream(GenericObjectPoolMXBean.class.getMethods())
                .filter(method -> method.getName().matches("(get|is).*"))
                .map(method -> method.getName().replaceFirst("get|is", ""))
                .filter(name -> !names.contains(name))
                .sorted()
                .collect(Collectors.toList());
    }

    private static void throwingSink() throws Exception {
        AtomicInteger noted = new AtomicInteger();
        Journal journal = whenDue(segment -> {
            throw new IllegalArgumentException("sink");
        });
        ZuphinkaPool<String> pool = new ZuphinkaPool<>(new Texts(), config(), null, journal.limit(100)) {
            @Override
            protected void swallowed(Exception failure) {
                noted.incrementAndGet();
                throw new IllegalStateException(failure);
            }
        };
        for (int round = 0; round < 20; round++) {
            pool.returnObject(pool.borrowObject());
        }
        expect("a sink that throws", "1 idle, 0 active, 1 created, 0 destroyed", counts(pool));
        expect("it is noted", true, noted.get() > 0);
        Object ending = "";
        for (int round = 0; round < 100 && ending.equals(round == 0 ? "" : "done"); round++) {
            ending = ending(() -> pool.returnObject(pool.borrowObject()));
        }
        expect("its journal gets full", "IllegalStateException: Journal full from sink", ending);
        pool.close();
        expect("it is closed", "0 idle, 0 active, 1 created, 1 destroyed", counts(pool));
    }

    private static void journals(Path folder) throws Exception {
        ZuphinkaPool<String> dropping = new ZuphinkaPool<>(new Texts(), config(), null, Journal.dropped().limit(100));
        Journal stored = whenDue(folder.resolve("stored")).limit(100);
        ZuphinkaPool<String> storing = new ZuphinkaPool<>(new Texts(), config(), null, stored);
        ZuphinkaPool<String> keeping = new ZuphinkaPool<>(new Texts(), config(), null, Journal.kept().limit(100));
        int drops = 0;
        for (int round = 0; round < 200; round++) {
            long before = dropping.getCounts().entries();
            dropping.returnObject(dropping.borrowObject());
            drops += dropping.getCounts().entries() < before ? 1 : 0;
            storing.returnObject(storing.borrowObject());
        }
        expect("a dropped journal is dropped each time that half of its room is used up", 200 * 4 / 50, drops);
        for (int round = 0; round < 24; round++) {
            keeping.returnObject(keeping.borrowObject());
        }
        expect("a kept journal gets full", "IllegalStateException: Journal full", result(keeping::borrowObject));
        expect("a cut of a stored journal", "UnsupportedOperationException: cut: this pool stores its journal; flushJournal stores what it has so far",
                result(storing::cut));
        Segment segment = keeping.cut();
        expect("its segment", "0 96", segment.position() + " " + segment.entries());
        expect("and goes on", "text 0", keeping.borrowObject());
        keeping.close();
        for (int again = 0; again < 10; again++) {
            expect("a further close", "done", ending(keeping::close));
        }
        expect("a further close makes no entry", 3L, keeping.getCounts().entries());
        dropping.close();
        storing.close();
        try (Stream<Path> files = Files.list(storing.getJournalFolder())) {
            // Those of the loans, the last of which has the close too, the settings, the start, and the names of callers.
            expect("a stored journal has as many segments", 200 * 4 / 50 + 3L, files.count());
        }
        failingSink();
        manyObjects();
        interruptedStore(folder.resolve("interrupted/stored"));
    }

    /** An interrupt keeps no segment from being stored. */
    private static void interruptedStore(Path to) throws Exception {
        List<Exception> noted = new ArrayList<>();
        Journal journal = whenDue(to);
        ZuphinkaPool<String> pool = new ZuphinkaPool<>(new Texts(), config(), null, journal) {
            @Override
            protected void swallowed(Exception failure) {
                noted.add(failure);
            }
        };
        pool.returnObject(pool.borrowObject());
        Thread.currentThread().interrupt();
        pool.close();
        expect("a thread that is interrupted stays so", true, Thread.interrupted());
        expect("its failures", List.of(), noted);
        try (Stream<Path> files = Files.list(pool.getJournalFolder())) {
            expect("its files", List.of("callers.txt", "segment-00000000000000000000", "settings.toml", "start.toml"),
                    files.map(file -> file.getFileName().toString()).sorted().collect(Collectors.toList()));
        }
    }

    /** A journal that is dropped has room for what is outstanding for many objects, and is dropped once it has eight entries for each. */
    private static void manyObjects() throws Exception {
        GenericObjectPoolConfig<String> config = config();
        config.setMaxTotal(-1);
        ZuphinkaPool<String> pool = new ZuphinkaPool<>(new Texts(), config);
        int lent = 2_600;
        for (int number = 0; number < lent; number++) {
            pool.borrowObject();
        }
        long most = 0;
        for (int round = 0; round < 4_000; round++) {
            pool.returnObject(pool.borrowObject());
            most = Math.max(most, pool.getCounts().entries());
        }
        expect("many are lent", "1 idle, 2600 active, 2601 created, 0 destroyed", counts(pool));
        expect("the most entries before a drop", 8 * (lent + 1L) - 4, most);
        expect("entries after it", 2L * (lent + 1) + 4 * 4_000 - 2 - 8 * (lent + 1L), pool.getCounts().entries());
        pool.close();
    }

    private static void failingSink() throws Exception {
        List<Segment> stored = new ArrayList<>();
        boolean[] isBroken = {true};
        Journal journal = whenDue(segment -> {
            if (isBroken[0]) {
                throw new IOException("sink");
            }
            stored.add(segment);
        }).limit(100);
        ZuphinkaPool<String> pool = new ZuphinkaPool<>(new Texts(), config(), null, journal);
        int lent = 0;
        Object ending = "";
        while (lent < 100 && !ending.toString().startsWith("IllegalState")) {
            ending = ending(() -> pool.returnObject(pool.borrowObject()));
            lent++;
        }
        expect("a sink that fails", "IllegalStateException: Journal full from sink", ending);
        isBroken[0] = false;
        pool.returnObject(pool.borrowObject());
        pool.close();
        long next = 0;
        boolean areInTurn = true;
        for (Segment segment : stored) {
            areInTurn &= segment.position() == next;
            next += segment.entries();
        }
        expect("no entry is lost", true, areInTurn && next == pool.getCounts().steps());
    }

    private static Path folder;
    private static int journals;

    /** Writes the journal of a pool that kept it whole. */
    private static void write(ZuphinkaPool<?> pool) throws IOException {
        String name = "journal-" + journals++;
        Files.write(folder.resolve(name), pool.getJournal().text());
        Files.write(folder.resolve(name + ".toml"), pool.getSettingsText().getBytes(StandardCharsets.UTF_8));
    }

    public static void main(String[] words) throws Exception {
        folder = Path.of(words[0]);
        callers();
        life();
        leases();
        failingLeases();
        leasesWithoutMemory();
        leasesOfThreads();
        messages();
        limits();
        wholeWaits();
        times();
        failures();
        orderOfFailures();
        upkeep();
        closedDuringMaintenance();
        closedAfterReplacement();
        contextOfMaintenance();
        construction();
        constructionBesideCalls();
        abandonment();
        inTime(Calls::slowDestruction);
        abandonedLease();
        uses();
        shortTimes();
        expect("objects by slot", List.of(), within(begun(Finding::faults)));
        wrappers();
        states();
        statesOfNew();
        inTime(Calls::trackedUse);
        for (UnaryOperator<Instant> clock : CLOCKS) {
            inTime(timeout -> setClock(clock, timeout));
        }
        inTime(Calls::earlierUse);
        fewQuestions();
        inTime(Calls::slowReport);
        refusals();
        closedAndFull();
        smallJournals();
        bean();
        throwingSink();
        journals(folder);
        printCounts();
    }
}
