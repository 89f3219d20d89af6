package io.github.zuphinka;

import java.util.Set;
import java.util.concurrent.TimeUnit;
import java.util.stream.Collectors;
import org.apache.commons.pool2.PooledObject;
import org.apache.commons.pool2.impl.DefaultPooledObjectInfo;

/** The numbers and the objects of a pool, as its user asks for them. */
abstract class MeasuredPool<T> extends ConfiguredPool<T> {
    final Objects<T> objects = new Objects<>();

    MeasuredPool() {}

    abstract Numbers numbers();

    /**
     * Returns the counts of the pool at one moment.
     *
     * @return the counts, which later calls do not change
     */
    public Counts getCounts() {
        return numbers().counts();
    }

    /**
     * Returns the state of the pool at one moment, to be written as a text in the OpenMetrics format.
     *
     * @param name what tells the pool from others in that text, any text
     * @return the metrics, which later calls do not change
     * @throws NullPointerException if the name is null
     */
    public Metrics metrics(String name) {
        return numbers().metrics(Metrics.label(name));
    }

    /**
     * Returns the number of idle objects, including those under an idle test.
     *
     * @return a number from 0
     */
    public int getNumIdle() {
        return (int) numbers().counts().idle();
    }

    /**
     * Returns the number of objects that are lent, or being made, activated, tested, passivated or destroyed.
     *
     * @return a number from 0
     */
    public int getNumActive() {
        Counts counts = numbers().counts();
        return (int) (counts.lent() + counts.reserved());
    }

    /**
     * Returns the number of threads that wait for an object.
     *
     * @return a number from 0
     */
    public int getNumWaiters() {
        return numbers().usage().waiters;
    }

    /**
     * Returns the number of loans since the pool was made.
     *
     * @return a number from 0
     */
    public long getBorrowedCount() {
        return numbers().usage().borrowed;
    }

    /**
     * Returns the number of returns of lent objects since the pool was made. An object that was abandoned or invalidated before does not count.
     *
     * @return a number from 0
     */
    public long getReturnedCount() {
        return numbers().usage().returned;
    }

    /**
     * Returns the number of objects that the pool asked its factory to make, also if that failed.
     *
     * @return a number from 0
     */
    public long getCreatedCount() {
        return numbers().counts().created();
    }

    /**
     * Returns the number of objects that lost their places: they were destroyed, could not be made, or were taken from their holders.
     *
     * @return a number from 0
     */
    public long getDestroyedCount() {
        Counts counts = numbers().counts();
        return counts.destroyed() + counts.reclaimed();
    }

    /**
     * Returns the number of idle objects that eviction runs destroyed, for their idle time or a failed test.
     *
     * @return a number from 0
     */
    public long getDestroyedByEvictorCount() {
        return numbers().counts().evicted();
    }

    /**
     * Returns the number of objects that were destroyed for a failed test of {@code testOnBorrow}.
     *
     * @return a number from 0
     */
    public long getDestroyedByBorrowValidationCount() {
        return numbers().usage().failedOnBorrow;
    }

    /**
     * Returns the longest time that a borrow took to lend an object: its wait, and the calls of the factory.
     *
     * @return milliseconds, from 0
     */
    public long getMaxBorrowWaitTimeMillis() {
        return TimeUnit.NANOSECONDS.toMillis(numbers().usage().longestWaitNanos);
    }

    /**
     * Returns the mean time that a borrow took to lend an object, of all borrows since the pool was made: its wait, and the calls of the factory.
     *
     * @return milliseconds, from 0; 0 if there was no loan
     */
    public long getMeanBorrowWaitTimeMillis() {
        Usage usage = numbers().usage();
        return usage.borrowed == 0 ? 0 : TimeUnit.NANOSECONDS.toMillis(usage.waitedNanos / usage.borrowed);
    }

    /**
     * Returns a view of each object that was made and is not being destroyed. It takes no lock: objects that come or go meanwhile may be missing.
     *
     * @return a new set
     */
    public Set<DefaultPooledObjectInfo> listAllObjects() {
        return objects.all().stream().map(this::infoOf).collect(Collectors.toSet());
    }

    /**
     * Returns the wrapper of an object. It takes no lock.
     *
     * @param object any object
     * @return its wrapper, if it was made by the factory and is not being destroyed; otherwise null
     */
    protected PooledObject<T> wrapperOf(T object) {
        Member<T> member = objects.find(object);
        return member == null ? null : member.pooled;
    }

    private DefaultPooledObjectInfo infoOf(Member<T> member) {
        return member.isWrapperTold ? new DefaultPooledObjectInfo(member.pooled) : new MemberInfo(numbers(), member);
    }
}
