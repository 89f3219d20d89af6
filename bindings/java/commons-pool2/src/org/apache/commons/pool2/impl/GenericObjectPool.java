package org.apache.commons.pool2.impl;

import io.github.zuphinka.Leak;
import io.github.zuphinka.Metrics;
import io.github.zuphinka.ZuphinkaPool;
import java.nio.file.Path;
import java.time.Duration;
import java.util.NoSuchElementException;
import java.util.Set;
import java.util.concurrent.locks.ReentrantLock;
import java.util.function.Consumer;
import org.apache.commons.pool2.DestroyMode;
import org.apache.commons.pool2.ObjectPool;
import org.apache.commons.pool2.PooledObject;
import org.apache.commons.pool2.PooledObjectFactory;
import org.apache.commons.pool2.UsageTracking;

/**
 * The class of Commons Pool 2 with this name, over a pool whose decisions are proved: a {@link io.github.zuphinka.ZuphinkaPool}. Put its jar before
 * the library's on the class path. All members of the library's class are here, and behave as there, except for named differences.
 *
 * <p>The settings, the eviction timer, the MBean and the statistics are those of the library's base class.
 *
 * <p>{@link #setConfig} holds at once, and as one change. The library's base class has most other setters, and they are final: what they set holds from
 * the next call on that borrows, returns, invalidates, adds, evicts or destroys objects, which also wakes threads that wait if there are more places.
 * Settings that a pool cannot have are thrown by each call that borrows, adds or evicts, as an {@link IllegalArgumentException}; all others go on with the
 * settings before.
 *
 * <p>If the property {@value ProvedPool#JOURNALS} names a folder, each pool stores its journal there, in a folder with the name of its MBean ({@link
 * io.github.zuphinka.Journal#inFolder}). The library has not the members {@link #metrics}, {@link #flushJournal}, {@link #getJournalFolder} and those
 * for leaks.
 *
 * @param <T> the type of the objects
 */
public class GenericObjectPool<T> extends BaseGenericObjectPool<T> implements ObjectPool<T>, GenericObjectPoolMXBean, UsageTracking<T> {
    private static final String BEAN_BASE = "org.apache.commons.pool2:type=GenericObjectPool,name=";

    private final PooledObjectFactory<T> factory;
    private final CountedFactory<T> counted;
    private final ProvedPool<T> pool;
    private final BorrowFailures failures = new BorrowFailures(this);
    private volatile int maxIdle = GenericObjectPoolConfig.DEFAULT_MAX_IDLE;
    private volatile int minIdle = GenericObjectPoolConfig.DEFAULT_MIN_IDLE;
    private volatile String factoryType;
    /** Held by an eviction run, so that there is one at a time and a close can wait for it. */
    private final ReentrantLock evicting = new ReentrantLock();

    /**
     * Makes a pool with the default settings.
     *
     * @param factory makes, activates, tests, passivates and destroys the objects
     * @throws IllegalArgumentException if the factory is null
     */
    public GenericObjectPool(PooledObjectFactory<T> factory) {
        this(factory, new GenericObjectPoolConfig<>());
    }

    /**
     * Makes a pool.
     *
     * @param factory makes, activates, tests, passivates and destroys the objects
     * @param config the settings; not null. They are copied
     * @throws IllegalArgumentException if the factory is null
     */
    public GenericObjectPool(PooledObjectFactory<T> factory, GenericObjectPoolConfig<T> config) {
        super(config, BEAN_BASE, config.getJmxNamePrefix());
        if (factory == null) {
            jmxUnregister();
            throw new IllegalArgumentException("Factory may not be null");
        }
        this.factory = factory;
        try {
            counted = CountedFactory.of(factory, this);
            pool = new ProvedPool<>(this, counted);
            setConfig(config);
        } catch (Throwable e) {
            jmxUnregister();
            throw e;
        }
    }

    /**
     * Makes a pool that takes abandoned objects from their holders.
     *
     * @param factory makes, activates, tests, passivates and destroys the objects
     * @param config the settings; not null. They are copied
     * @param abandonedConfig when objects are abandoned; null: never
     * @throws IllegalArgumentException if the factory is null
     */
    public GenericObjectPool(PooledObjectFactory<T> factory, GenericObjectPoolConfig<T> config, AbandonedConfig abandonedConfig) {
        this(factory, config);
        setAbandonedConfig(abandonedConfig);
    }

    // Borrows.

    /**
     * Lends an object: an idle one, or a new one if there is a free place. Otherwise it waits, as long as {@code maxWait} says.
     *
     * @return an object that no other caller has, until it is returned, invalidated or abandoned
     * @throws NoSuchElementException if no object and no place is free, and the settings say not to wait or the time is over: after the library's message
     *     it has the pool's name, how long the borrow waited, and the numbers of objects. Or if a new object failed its activation or its test
     * @throws IllegalStateException if the pool is closed
     * @throws InterruptedException if the thread is interrupted, or the pool is closed, while it waits
     * @throws Exception if the factory fails to make an object; the same exception
     */
    @Override
    public T borrowObject() throws Exception {
        return borrowObject(getMaxWaitDuration());
    }

    /**
     * Lends an object as {@link #borrowObject()}, with a limit of its own to the wait.
     *
     * @param borrowMaxWaitDuration the longest wait; negative: without a limit. Not null
     * @return an object that no other caller has
     * @throws Exception as {@link #borrowObject()}
     */
    public T borrowObject(Duration borrowMaxWaitDuration) throws Exception {
        assertOpen();
        pool.update();
        boolean blocks = pool.blocks; // to the end of this borrow
        try {
            return pool.borrowObject(blocks ? borrowMaxWaitDuration : Duration.ZERO);
        } catch (NoSuchElementException | InterruptedException | IllegalStateException e) {
            throw counted.isOfMake(e) ? e : failures.of(e, blocks ? borrowMaxWaitDuration : null);
        } finally {
            pool.showCounts();
        }
    }

    /**
     * Lends an object as {@link #borrowObject()}, with a limit of its own to the wait.
     *
     * @param borrowMaxWaitMillis the longest wait in milliseconds; negative: without a limit
     * @return an object that no other caller has
     * @throws Exception as {@link #borrowObject()}
     */
    public T borrowObject(long borrowMaxWaitMillis) throws Exception {
        return borrowObject(Duration.ofMillis(borrowMaxWaitMillis));
    }

    /** Shows what the objects were destroyed for. The factory may be called before the pool is there. */
    void showCounts() {
        if (pool != null) {
            pool.showCounts();
        }
    }

    // Returns.

    @Override
    public void returnObject(T obj) {
        pool.updateQuietly();
        pool.returnObject(obj);
    }

    @Override
    public void invalidateObject(T obj) throws Exception {
        invalidateObject(obj, DestroyMode.NORMAL);
    }

    @Override
    public void invalidateObject(T obj, DestroyMode destroyMode) throws Exception {
        pool.updateQuietly();
        pool.invalidateObject(obj, destroyMode);
    }

    @Override
    public void use(T pooledObject) {
        pool.updateQuietly();
        pool.use(pooledObject);
    }

    // Upkeep.

    @Override
    public void addObject() throws Exception {
        assertOpen();
        pool.update();
        pool.addObject();
    }

    @Override
    void ensureMinIdle() throws Exception {
        if (getMinIdle() < 1 || isClosed()) {
            return;
        }
        pool.update();
        pool.preparePool();
    }

    /**
     * Makes idle objects until {@code minIdle} are idle, as far as there are places.
     *
     * @throws Exception if the factory fails to make or to passivate one; the same exception. Those made before stay idle
     */
    public void preparePool() throws Exception {
        ensureMinIdle();
    }

    /**
     * Examines idle objects, as many as {@code numTestsPerEvictionRun} says, and destroys those that were idle for too long or fail their test. Then it
     * takes abandoned objects from their holders, if the settings say so. The eviction timer calls it.
     *
     * @throws IllegalStateException if the pool is closed
     * @throws Exception what a test or a destruction threw first, once the run is over
     */
    @Override
    public void evict() throws Exception {
        assertOpen();
        pool.update();
        evicting.lock();
        try {
            if (!isClosed()) {
                pool.evict();
            }
        } finally {
            evicting.unlock();
            pool.showCounts();
        }
    }

    @Override
    public void clear() {
        pool.updateQuietly();
        pool.clear();
    }

    /**
     * Closes the pool: nothing is lent any more, waiting borrows end, and idle objects are destroyed. Lent ones are destroyed when they are returned. It
     * ends the eviction timer and unregisters the MBean, also if the factory throws an {@link Error}. A second close has no effect, and does not wait for
     * the first.
     *
     * @throws StackOverflowError if the thread has too little of its stack left; the pool is open, and may be closed later
     */
    @Override
    public void close() {
        if (isClosed()) {
            return;
        }
        synchronized (closeLock) {
            if (!isClosed()) {
                closeOnce();
            }
        }
    }

    private void closeOnce() {
        awaitRun(); // before the monitor of the timer is held, which other pools need
        stopEvictor();
        evicting.lock();
        closed = true;
        evicting.unlock();
        try {
            pool.close();
        } catch (Throwable e) {
            closed = false; // before a call that may find the stack full again
            closed = pool.isClosed();
            throw e;
        } finally {
            if (closed) {
                jmxUnregister();
            } else {
                setTimeBetweenEvictionRuns(getDurationBetweenEvictionRuns()); // starts the timer again
            }
        }
    }

    /** Waits for the eviction run that there is, if there is one. */
    private void awaitRun() {
        evicting.lock();
        evicting.unlock();
    }

    // Settings.

    /**
     * Sets all settings, as one change. If the pool cannot have them, the next call throws that.
     *
     * @param conf the settings; not null. They are copied
     */
    public void setConfig(GenericObjectPoolConfig<T> conf) {
        pool.setAll(() -> {
            super.setConfig(conf);
            setMaxIdle(conf.getMaxIdle());
            setMinIdle(conf.getMinIdle());
            setMaxTotal(conf.getMaxTotal());
        });
    }

    @Override
    public int getMaxIdle() {
        return maxIdle;
    }

    /**
     * Sets the number of idle objects from which on a returned object is destroyed.
     *
     * @param maxIdle a number of objects; negative: no limit
     */
    public void setMaxIdle(int maxIdle) {
        this.maxIdle = maxIdle;
    }

    @Override
    public int getMinIdle() {
        return maxIdle < 0 ? minIdle : Math.min(minIdle, maxIdle);
    }

    /**
     * Sets the number of idle objects that maintenance keeps; {@code maxIdle} if that is smaller.
     *
     * @param minIdle a number of objects
     */
    public void setMinIdle(int minIdle) {
        this.minIdle = minIdle;
    }

    /**
     * Returns the factory.
     *
     * @return the one that the pool was made with
     */
    public PooledObjectFactory<T> getFactory() {
        return factory;
    }

    @Override
    public String getFactoryType() {
        if (factoryType == null) {
            String ofObjects = PoolImplUtils.getFactoryType(factory.getClass()).getName();
            factoryType = factory.getClass().getName() + '<' + ofObjects + '>';
        }
        return factoryType;
    }

    // Numbers and objects.

    /**
     * Returns the number of objects that are lent, or being made, activated, tested, passivated or destroyed. The library counts none that is being made
     * or destroyed.
     *
     * @return a number from 0
     */
    @Override
    public int getNumActive() {
        return pool.getNumActive();
    }

    @Override
    public int getNumIdle() {
        return pool.getNumIdle();
    }

    @Override
    public int getNumWaiters() {
        return pool.getNumWaiters();
    }

    @Override
    public Set<DefaultPooledObjectInfo> listAllObjects() {
        return pool.listAllObjects();
    }

    /** Returns the wrapper of an object; null if it is not of this pool. */
    PooledObject<T> getPooledObject(T obj) {
        return pool.wrapperOf(obj);
    }

    // What the library has not.

    /**
     * Returns the state of the pool at one moment, to be written as a text in the OpenMetrics format.
     *
     * @param name what tells the pool from others in that text, any text
     * @return the metrics, which later calls do not change
     * @throws NullPointerException if the name is null
     */
    public Metrics metrics(String name) {
        return pool.metrics(name);
    }

    /** Stores all entries of a journal that is stored, now. It has no effect on one that is dropped. */
    public void flushJournal() {
        pool.flushJournal();
    }

    /**
     * Returns the folder with the journal.
     *
     * @return the folder that was made for this pool; null if its journal is dropped
     */
    public Path getJournalFolder() {
        return pool.getJournalFolder();
    }

    /**
     * Has each loan told once that lasts longer than a limit, as {@link ZuphinkaPool#setLeakDetectionThreshold}.
     *
     * @param value the limit; 0 or negative: none is told
     */
    public void setLeakDetectionThreshold(Duration value) {
        pool.setLeakDetectionThreshold(value);
    }

    /**
     * Sets what is told of leaks, as {@link ZuphinkaPool#setLeakListener}.
     *
     * @param listener what is told; not null
     */
    public void setLeakListener(Consumer<Leak> listener) {
        pool.setLeakListener(listener);
    }

    /**
     * Sets whether each borrow notes its stack, as {@link ZuphinkaPool#setLeakStackTraces}.
     *
     * @param value whether it does; false by default
     */
    public void setLeakStackTraces(boolean value) {
        pool.setLeakStackTraces(value);
    }

    @Override
    String getStatsString() {
        String made = String.format(", createdCount=%,d, makeObjectCount=%,d", createdCount.get(), counted.making());
        return super.getStatsString() + made + String.format(", maxIdle=%,d, minIdle=%,d", maxIdle, minIdle);
    }

    @Override
    protected void toStringAppendFields(StringBuilder builder) {
        super.toStringAppendFields(builder);
        builder.append(", factoryType=").append(factoryType);
        builder.append(", maxIdle=").append(maxIdle);
        builder.append(", minIdle=").append(minIdle);
        builder.append(", factory=").append(factory);
        builder.append(", allObjects=").append(listAllObjects().size());
        builder.append(", createCount=").append(createdCount);
        builder.append(", idleObjects=").append(getNumIdle());
        builder.append(", abandonedConfig=").append(abandonedConfig);
    }
}
