package org.apache.commons.pool2.impl;

import io.github.zuphinka.Journal;
import io.github.zuphinka.TimedObject;
import io.github.zuphinka.ZuphinkaPool;
import java.io.IOException;
import java.io.UncheckedIOException;
import java.nio.file.Path;
import java.time.Duration;
import java.util.concurrent.TimeUnit;
import org.apache.commons.pool2.PooledObject;

/** The pool with the objects of a {@link GenericObjectPool}. It has the settings that this had at the last call which took them over. */
final class ProvedPool<T> extends ZuphinkaPool<T> {
    /** The property that names the folder for the journals of all pools. */
    static final String JOURNALS = "zuphinka.journals";

    /** Stands for an object that was idle for a time, as the library counts that. */
    private static final class Idle<T> extends TimedObject<T> {
        private final Duration idle;

        Idle(long nanos) {
            super(null, 0);
            idle = Duration.ofNanos(nanos);
        }

        @Override
        public Duration getIdleDuration() {
            return idle;
        }
    }

    private final GenericObjectPool<T> owner;
    private final CountedFactory<T> factory;
    /** The settings of the owner when they were last taken over. Of that for abandoned objects it has another one each time that it is set. */
    private volatile GenericObjectPoolConfig<T> known;
    private volatile AbandonedConfig abandoned;
    /** Whether a borrow waits that begins now: no setting of the pool below, as it holds to the end of a borrow. */
    volatile boolean blocks;
    /** How many objects were destroyed when the owner was last shown for what. */
    private volatile long shownDestroyed;
    /** How many threads set all settings of the owner, of which none is taken over meanwhile. */
    private int setters;

    ProvedPool(GenericObjectPool<T> owner, CountedFactory<T> factory) {
        this(owner, factory, settingsOf(owner));
    }

    private ProvedPool(GenericObjectPool<T> owner, CountedFactory<T> factory, GenericObjectPoolConfig<T> config) {
        super(factory, config, null, journal(owner));
        this.owner = owner;
        this.factory = factory;
        known = config;
        blocks = owner.getBlockWhenExhausted();
    }

    private static Journal journal(GenericObjectPool<?> owner) {
        String parent = System.getProperty(JOURNALS);
        if (parent == null) {
            return Journal.dropped();
        }
        try {
            return Journal.inFolder(Path.of(parent).resolve(folderOf(owner)));
        } catch (IOException e) {
            throw new UncheckedIOException(e);
        }
    }

    /** Returns what tells a pool from others: the name of its MBean; without one the class of its factory. */
    private static String nameOf(GenericObjectPool<?> owner) {
        return owner.getJmxName() == null ? "of " + owner.getFactory().getClass().getName() : owner.getJmxName().toString();
    }

    /** Returns the same as the name of a folder, with {@code _} for what such a name should not have. */
    private static String folderOf(GenericObjectPool<?> owner) {
        return nameOf(owner).replaceAll("[^A-Za-z0-9.,:=$-]", "_");
    }

    /** Returns the settings of a pool, except those of its base class alone: of its timer, its MBean and its messages. */
    private static <T> GenericObjectPoolConfig<T> settingsOf(GenericObjectPool<T> pool) {
        GenericObjectPoolConfig<T> config = new GenericObjectPoolConfig<>();
        config.setJmxEnabled(false);
        config.setJmxNamePrefix(nameOf(pool));
        config.setEvictionPolicy(ToldPolicy.of(pool));
        config.setFairness(pool.getFairness());
        config.setLifo(pool.getLifo());
        config.setMaxIdle(pool.getMaxIdle());
        config.setMaxTotal(pool.getMaxTotal());
        config.setMaxWait(pool.getMaxWaitDuration());
        config.setMinEvictableIdleTime(pool.getMinEvictableIdleDuration());
        config.setMinIdle(pool.getMinIdle());
        config.setNumTestsPerEvictionRun(pool.getNumTestsPerEvictionRun());
        config.setSoftMinEvictableIdleTime(pool.getSoftMinEvictableIdleDuration());
        config.setTestOnBorrow(pool.getTestOnBorrow());
        config.setTestOnCreate(pool.getTestOnCreate());
        config.setTestOnReturn(pool.getTestOnReturn());
        config.setTestWhileIdle(pool.getTestWhileIdle());
        return config;
    }

    private boolean isUpToDate() {
        GenericObjectPoolConfig<T> some = known;
        return hasLimits(some) && hasTests(some)
                && blocks == owner.getBlockWhenExhausted()
                && some.getLifo() == owner.getLifo()
                && abandoned == owner.abandonedConfig;
    }

    private boolean hasLimits(GenericObjectPoolConfig<T> some) {
        return some.getMaxIdle() == owner.getMaxIdle()
                && some.getMaxTotal() == owner.getMaxTotal()
                && some.getMinIdle() == owner.getMinIdle()
                && some.getMaxWaitDuration().equals(owner.getMaxWaitDuration())
                && some.getMinEvictableIdleDuration().equals(owner.getMinEvictableIdleDuration())
                && some.getSoftMinEvictableIdleDuration().equals(owner.getSoftMinEvictableIdleDuration());
    }

    private boolean hasTests(GenericObjectPoolConfig<T> some) {
        return some.getTestOnBorrow() == owner.getTestOnBorrow()
                && some.getTestOnCreate() == owner.getTestOnCreate()
                && some.getTestOnReturn() == owner.getTestOnReturn()
                && some.getTestWhileIdle() == owner.getTestWhileIdle()
                && some.getNumTestsPerEvictionRun() == owner.getNumTestsPerEvictionRun()
                && ToldPolicy.inside(some.getEvictionPolicy()) == owner.getEvictionPolicy();
    }

    /** Takes the settings of the owner over, if they changed. */
    void update() {
        if (!isUpToDate()) {
            takeOver();
        }
    }

    /** Sets all settings of the owner, and takes them over as one change. */
    void setAll(Runnable setter) {
        addSetters(1);
        try {
            setter.run();
        } finally {
            addSetters(-1);
        }
        updateQuietly();
    }

    private synchronized void addSetters(int more) {
        setters += more;
    }

    private synchronized void takeOver() {
        if (setters > 0) {
            return;
        }
        GenericObjectPoolConfig<T> latest = settingsOf(owner);
        AbandonedConfig latestAbandoned = owner.abandonedConfig;
        boolean latestBlocks = owner.getBlockWhenExhausted();
        reconfigure(latest, latestAbandoned);
        known = latest;
        abandoned = latestAbandoned;
        blocks = latestBlocks;
    }

    /** Does the same for a call that is not to fail. Settings that the pool cannot have are thrown by the next call of {@link #update}. */
    void updateQuietly() {
        try {
            update();
        } catch (RuntimeException | OutOfMemoryError e) {
            // It goes on with the settings that it has.
        }
    }

    @Override
    public PooledObject<T> wrapperOf(T object) {
        return super.wrapperOf(object);
    }

    /** Counts a loan: how long its borrow took, and for how long the object was idle, unless a wrapper of the user's own class knows that. */
    @Override
    protected void lent(PooledObject<T> wrapper, long waitedNanos, long idleNanos) {
        boolean isOwn = wrapper.getClass() != DefaultPooledObject.class;
        owner.updateStatsBorrow(isOwn ? wrapper : new Idle<>(idleNanos), Duration.ofMillis(TimeUnit.NANOSECONDS.toMillis(waitedNanos)));
    }

    /** Counts a return and the time of its loan, as a wrapper of the user's own class knows it, or the pool. */
    @Override
    public void returnObject(T object) {
        PooledObject<T> own = factory.hasOwnWrappers() ? wrapperOf(object) : null;
        Duration active = own == null ? null : own.getActiveDuration();
        long nanos = giveBack(object);
        if (nanos >= 0) {
            owner.updateStatsReturn(active == null ? Duration.ofNanos(nanos) : active);
        }
    }

    @Override
    public void evict() throws Exception {
        factory.evict(super::evict);
    }

    @Override
    protected void swallowed(Exception failure) {
        if (!factory.isToBeThrown(failure)) {
            owner.swallowException(failure);
        }
    }

    /**
     * Shows the owner how many objects were destroyed by eviction runs and for failed tests of borrows, if any were since this was last done. If there is
     * no memory or stack for that, the next call does it.
     */
    void showCounts() {
        try {
            if (owner.destroyedCount.get() != shownDestroyed) {
                showChangedCounts();
            }
        } catch (OutOfMemoryError | StackOverflowError e) {
            // The call whose end this is has lent an object.
        }
    }

    private synchronized void showChangedCounts() {
        long destroyed = owner.destroyedCount.get();
        owner.destroyedByEvictorCount.set(getDestroyedByEvictorCount());
        owner.destroyedByBorrowValidationCount.set(getDestroyedByBorrowValidationCount());
        shownDestroyed = destroyed;
    }
}
