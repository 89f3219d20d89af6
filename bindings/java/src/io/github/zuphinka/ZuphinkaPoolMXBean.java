package io.github.zuphinka;

import java.util.Set;
import org.apache.commons.pool2.impl.DefaultPooledObjectInfo;

/**
 * The attributes of a pool for JMX, and an operation, named as those of Commons Pool. The settings are those with which the pool was made. All others
 * are of the moment; once the pool is garbage, an {@link IllegalStateException} is thrown for them, except for {@link #isClosed}. Any number of
 * threads may call it.
 */
public interface ZuphinkaPoolMXBean {
    /**
     * Returns whether a borrow waits if no object and no place is free.
     *
     * @return the setting {@code blockWhenExhausted}
     */
    boolean getBlockWhenExhausted();

    /**
     * Returns whether a borrow takes the object that was returned last, and not the one that was returned first.
     *
     * @return the setting {@code lifo}
     */
    boolean getLifo();

    /**
     * Returns whether threads that wait are served in the order in which they came.
     *
     * @return false
     */
    boolean getFairness();

    /**
     * Returns the number of idle objects from which on a returned object is destroyed.
     *
     * @return the setting {@code maxIdle}; negative: no limit
     */
    int getMaxIdle();

    /**
     * Returns the number of idle objects that the maintenance keeps: the setting {@code minIdle}, or {@code maxIdle} if that is less and not
     * negative.
     *
     * @return a number; none are kept if it is negative
     */
    int getMinIdle();

    /**
     * Returns the number of objects that have a place at most.
     *
     * @return the setting {@code maxTotal}; negative: no limit
     */
    int getMaxTotal();

    /**
     * Returns the longest wait of a borrow that has no limit of its own.
     *
     * @return milliseconds; negative: no limit
     */
    long getMaxWaitMillis();

    /**
     * Returns the time after which an eviction run destroys an idle object.
     *
     * @return milliseconds; 0 or negative: none is destroyed for its idle time alone
     */
    long getMinEvictableIdleTimeMillis();

    /**
     * Returns the number of idle objects that an eviction run examines.
     *
     * @return a number; -n: one n-th of the idle ones, rounded up
     */
    int getNumTestsPerEvictionRun();

    /**
     * Returns whether a new object is tested.
     *
     * @return the setting {@code testOnCreate}
     */
    boolean getTestOnCreate();

    /**
     * Returns whether an object is tested before it is lent.
     *
     * @return the setting {@code testOnBorrow}
     */
    boolean getTestOnBorrow();

    /**
     * Returns whether an object is tested when it is returned.
     *
     * @return the setting {@code testOnReturn}
     */
    boolean getTestOnReturn();

    /**
     * Returns whether an eviction run tests the idle objects that it does not destroy.
     *
     * @return the setting {@code testWhileIdle}
     */
    boolean getTestWhileIdle();

    /**
     * Returns the time for which the maintenance thread sleeps between two runs.
     *
     * @return milliseconds; 0 or negative: there is no such thread
     */
    long getTimeBetweenEvictionRunsMillis();

    /**
     * Returns whether the pool is closed, or garbage.
     *
     * @return true if it is
     */
    boolean isClosed();

    /**
     * Returns {@link ZuphinkaPool#getNumActive}.
     *
     * @return a number of objects, from 0
     */
    int getNumActive();

    /**
     * Returns {@link ZuphinkaPool#getNumIdle}.
     *
     * @return a number of objects, from 0
     */
    int getNumIdle();

    /**
     * Returns {@link ZuphinkaPool#getNumWaiters}.
     *
     * @return a number of threads, from 0
     */
    int getNumWaiters();

    /**
     * Returns {@link ZuphinkaPool#getCreatedCount}.
     *
     * @return a number of objects, from 0
     */
    long getCreatedCount();

    /**
     * Returns {@link ZuphinkaPool#getBorrowedCount}.
     *
     * @return a number of loans, from 0
     */
    long getBorrowedCount();

    /**
     * Returns {@link ZuphinkaPool#getReturnedCount}.
     *
     * @return a number of returns, from 0
     */
    long getReturnedCount();

    /**
     * Returns {@link ZuphinkaPool#getDestroyedCount}.
     *
     * @return a number of objects, from 0
     */
    long getDestroyedCount();

    /**
     * Returns {@link ZuphinkaPool#getDestroyedByEvictorCount}.
     *
     * @return a number of objects, from 0
     */
    long getDestroyedByEvictorCount();

    /**
     * Returns {@link ZuphinkaPool#getDestroyedByBorrowValidationCount}.
     *
     * @return a number of objects, from 0
     */
    long getDestroyedByBorrowValidationCount();

    /**
     * Returns {@link ZuphinkaPool#getMaxBorrowWaitTimeMillis}.
     *
     * @return milliseconds, from 0
     */
    long getMaxBorrowWaitTimeMillis();

    /**
     * Returns {@link ZuphinkaPool#getMeanBorrowWaitTimeMillis}.
     *
     * @return milliseconds, from 0
     */
    long getMeanBorrowWaitTimeMillis();

    /**
     * Returns whether objects can be abandoned.
     *
     * @return true if the pool has an {@code AbandonedConfig}
     */
    boolean isAbandonedConfig();

    /**
     * Returns whether the stack of the borrow of an abandoned object is printed.
     *
     * @return the setting {@code logAbandoned}; false if objects cannot be abandoned
     */
    boolean getLogAbandoned();

    /**
     * Returns whether a borrow first takes abandoned objects from their holders.
     *
     * @return the setting {@code removeAbandonedOnBorrow}; false if objects cannot be abandoned
     */
    boolean getRemoveAbandonedOnBorrow();

    /**
     * Returns whether an eviction run takes abandoned objects from their holders.
     *
     * @return the setting {@code removeAbandonedOnMaintenance}; false if objects cannot be abandoned
     */
    boolean getRemoveAbandonedOnMaintenance();

    /**
     * Returns the time after which a lent object that is not used is abandoned.
     *
     * @return whole seconds; {@link Integer#MAX_VALUE} if objects cannot be abandoned
     */
    int getRemoveAbandonedTimeout();

    /**
     * Returns the name of the factory's class.
     *
     * @return a name as {@link Class#getName} returns it
     */
    String getFactoryType();

    /**
     * Returns the stack of the thread that made the pool, as it was then.
     *
     * @return the text that {@link Throwable#printStackTrace()} prints
     */
    String getCreationStackTrace();

    /**
     * Returns {@link ZuphinkaPool#listAllObjects}: for each object its times, its number of loans, its class and its text. The text is that of the
     * object's {@code toString}, which runs without the pool's lock.
     *
     * @return a new set; for a client of JMX an array of {@code CompositeData}
     */
    Set<DefaultPooledObjectInfo> listAllObjects();
}
