package io.github.zuphinka;

import java.time.Duration;

/**
 * A loan that ends with a {@code try} block: {@link #close} returns the object to its pool, once. {@link ZuphinkaPool#lease()} makes it.
 *
 * <p>End the loan by its lease alone: do not pass the object to {@code returnObject} or {@code invalidateObject} of the pool. Any number of threads
 * may use a lease, and one of them ends it.
 *
 * @param <T> the type of the object
 */
public final class Lease<T> implements AutoCloseable {
    private final ZuphinkaPool<T> pool;
    private T object;
    private volatile boolean isOver;

    /** How a loan ends. */
    private interface Way<T, E extends Exception> {
        void end(T object) throws E;
    }

    private Lease(ZuphinkaPool<T> pool) {
        this.pool = pool;
    }

    /** Borrows an object, once there is memory for its lease. */
    static <T> Lease<T> of(ZuphinkaPool<T> pool) throws Exception {
        Lease<T> lease = new Lease<>(pool);
        lease.object = pool.borrowObject();
        return lease;
    }

    /** Does the same, with a limit to the wait. */
    static <T> Lease<T> of(ZuphinkaPool<T> pool, Duration longest) throws Exception {
        Lease<T> lease = new Lease<>(pool);
        lease.object = pool.borrowObject(longest);
        return lease;
    }

    /**
     * Returns the lent object.
     *
     * @return always the same object
     * @throws IllegalStateException if the lease is over
     */
    public T get() {
        if (isOver) {
            throw over();
        }
        return object;
    }

    /**
     * Destroys the object and ends the lease, as {@link ZuphinkaPool#invalidateObject(Object)}. Call it if the object is broken. A later {@link
     * #close} has no effect.
     *
     * @throws IllegalStateException if the lease is over
     * @throws StackOverflowError if the thread has too little of its stack left: then the lease is not over, and may be ended later
     * @throws OutOfMemoryError if the heap of the virtual machine is full: the same, unless the object is destroyed
     * @throws Exception if the factory fails to destroy the object. Its place is free all the same, and the lease is over
     */
    public void invalidate() throws Exception {
        if (!this.<Exception>ends(pool::invalidateObject)) {
            throw over();
        }
    }

    /**
     * Returns the object and ends the lease, as {@link ZuphinkaPool#returnObject}. It has no effect if the lease is over.
     *
     * @throws StackOverflowError if the thread has too little of its stack left: then the lease is not over, and may be ended later
     * @throws OutOfMemoryError if the heap of the virtual machine is full: the same, unless the object is destroyed
     */
    @Override
    public void close() {
        this.<RuntimeException>ends(pool::returnObject);
    }

    /** Ends the lease in a way, and returns whether it was not over. After a full stack or heap it is not over either, unless the object is gone. */
    private <E extends Exception> boolean ends(Way<T, E> way) throws E {
        boolean isMine = false;
        try {
            isMine = isTaken();
            if (isMine) {
                way.end(object);
            }
            return isMine;
        } catch (StackOverflowError | OutOfMemoryError e) {
            if (isMine) {
                isOver = false; // before a call that may find it full again
                if (pool.wrapperOf(object) == null) {
                    isOver = true;
                }
            }
            throw e;
        }
    }

    /** Takes the end of the lease for this call, and returns whether no other has it. */
    private synchronized boolean isTaken() {
        boolean wasOver = isOver;
        isOver = true;
        return !wasOver;
    }

    private static IllegalStateException over() {
        return new IllegalStateException("The lease is over");
    }
}
