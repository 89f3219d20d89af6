package org.apache.commons.pool2.impl;

import java.lang.ref.WeakReference;
import java.util.NoSuchElementException;
import java.util.concurrent.atomic.AtomicLong;
import org.apache.commons.pool2.BasePooledObjectFactory;
import org.apache.commons.pool2.DestroyMode;
import org.apache.commons.pool2.PooledObject;
import org.apache.commons.pool2.PooledObjectFactory;

/** Passes the calls of a factory on, and counts the objects that are made and destroyed for a pool. It has no work to activate or passivate one. */
class CountedFactory<T> extends BasePooledObjectFactory<T> {
    final PooledObjectFactory<T> factory;
    private final GenericObjectPool<T> pool;
    private final AtomicLong making = new AtomicLong();
    private volatile boolean hasOwnWrappers;
    /** What the eviction run of a thread throws at its end. */
    private final ThreadLocal<EvictionFailure> failures = new ThreadLocal<>();
    /** What the factory last threw in a thread in place of an object, if it may look like an exception of the pool. */
    private final ThreadLocal<WeakReference<Exception>> notMade = new ThreadLocal<>();

    /** An eviction run. */
    interface Run {
        void make() throws Exception;
    }

    /** What a test or a destruction threw first in an eviction run; null if none did. */
    private static final class EvictionFailure {
        Exception first;
    }

    /** Has such work too. */
    private static final class Hooked<T> extends CountedFactory<T> {
        Hooked(PooledObjectFactory<T> factory, GenericObjectPool<T> pool) {
            super(factory, pool);
        }

        @Override
        public void activateObject(PooledObject<T> pooled) throws Exception {
            factory.activateObject(pooled);
        }

        @Override
        public void passivateObject(PooledObject<T> pooled) throws Exception {
            factory.passivateObject(pooled);
        }
    }

    private CountedFactory(PooledObjectFactory<T> factory, GenericObjectPool<T> pool) {
        this.factory = factory;
        this.pool = pool;
    }

    static <T> CountedFactory<T> of(PooledObjectFactory<T> factory, GenericObjectPool<T> pool) {
        boolean isBare = factory instanceof BasePooledObjectFactory && inherits(factory, "activateObject") && inherits(factory, "passivateObject");
        return isBare ? new CountedFactory<>(factory, pool) : new Hooked<>(factory, pool);
    }

    /** Returns whether a method of a factory is that of its base class, which does nothing; false if none can be looked up, for lack of a class. */
    private static boolean inherits(PooledObjectFactory<?> factory, String method) {
        try {
            Class<?> declaring = factory.getClass().getMethod(method, PooledObject.class).getDeclaringClass();
            return declaring.isAssignableFrom(BasePooledObjectFactory.class);
        } catch (NoSuchMethodException | LinkageError e) {
            return false;
        }
    }

    /** Returns how many objects are being made. */
    long making() {
        return making.get();
    }

    /** Returns whether some wrapper is of another class than the library's, and may know other times than the pool. */
    boolean hasOwnWrappers() {
        return hasOwnWrappers;
    }

    @Override
    public PooledObject<T> makeObject() throws Exception {
        making.incrementAndGet();
        try {
            PooledObject<T> made = factory.makeObject();
            if (made != null) {
                pool.createdCount.incrementAndGet();
            }
            if (made != null && made.getClass() != DefaultPooledObject.class) {
                hasOwnWrappers = true; // another thread may have set it meanwhile
            }
            return made;
        } catch (NoSuchElementException | IllegalStateException | InterruptedException e) {
            notMade.set(new WeakReference<>(e));
            throw e;
        } finally {
            making.decrementAndGet();
        }
    }

    /** Returns whether the factory threw a failure of this thread in place of an object. */
    boolean isOfMake(Exception failure) {
        WeakReference<Exception> last = notMade.get();
        return last != null && last.get() == failure;
    }

    /** Makes an eviction run in this thread, and then throws what a test or a destruction threw first, as the library does at once. */
    void evict(Run run) throws Exception {
        EvictionFailure failure = new EvictionFailure();
        failures.set(failure);
        try {
            run.make();
        } catch (Throwable e) {
            if (failure.first != null && failure.first != e) {
                e.addSuppressed(failure.first);
            }
            throw e;
        } finally {
            failures.remove();
        }
        if (failure.first != null) {
            throw failure.first;
        }
    }

    /** Returns whether the eviction run of this thread throws a failure at its end. */
    boolean isToBeThrown(Exception failure) {
        EvictionFailure ofRun = failures.get();
        return ofRun != null && ofRun.first == failure;
    }

    /** Notes what the factory threw, if this is the first failure of an eviction run. */
    private <E extends Exception> E noted(E failure) {
        EvictionFailure ofRun = failures.get();
        if (ofRun != null && ofRun.first == null) {
            ofRun.first = failure;
        }
        return failure;
    }

    @Override
    public boolean validateObject(PooledObject<T> pooled) {
        try {
            return factory.validateObject(pooled);
        } catch (RuntimeException e) {
            throw noted(e);
        }
    }

    @Override
    public void destroyObject(PooledObject<T> pooled) throws Exception {
        destroyObject(pooled, DestroyMode.NORMAL);
    }

    @Override
    public void destroyObject(PooledObject<T> pooled, DestroyMode mode) throws Exception {
        try {
            factory.destroyObject(pooled, mode);
        } catch (Exception e) {
            throw mode == DestroyMode.ABANDONED ? e : noted(e);
        } finally {
            pool.destroyedCount.incrementAndGet();
            pool.showCounts();
        }
    }

    @Override
    public T create() {
        throw new UnsupportedOperationException("makeObject makes the objects");
    }

    @Override
    public PooledObject<T> wrap(T object) {
        throw new UnsupportedOperationException("makeObject makes the wrappers");
    }
}
