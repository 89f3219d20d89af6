package io.github.zuphinka;

import java.io.PrintWriter;
import java.time.Duration;
import java.time.Instant;
import java.util.Deque;
import org.apache.commons.pool2.PooledObject;
import org.apache.commons.pool2.PooledObjectState;
import org.apache.commons.pool2.TrackedUse;
import org.apache.commons.pool2.impl.CallStack;
import org.apache.commons.pool2.impl.CallStackUtils;
import org.apache.commons.pool2.impl.NoOpCallStack;

/**
 * A wrapper as Commons Pool's {@code DefaultPooledObject}, which a pool tells when its object is lent and returned: so it reads no clock for that.
 *
 * @param <T> the type of the object
 */
@SuppressWarnings("deprecation") // the interface has times in milliseconds, too
public class TimedObject<T> implements PooledObject<T> {
    /** What comes before the stacks of the last borrow and the last use. */
    private static final String BORROWED = "'Pooled object created' yyyy-MM-dd HH:mm:ss Z 'by the following code has not been returned to the pool:'";
    private static final String USED = "The last code to use this object was:";

    private final T object;
    private final Moment created;
    private volatile Moment lent;
    /** The last use that its holder noted. */
    private volatile Moment used;
    private volatile Moment returned;
    private volatile CallStack borrowedBy = NoOpCallStack.INSTANCE;
    private volatile CallStack usedBy = NoOpCallStack.INSTANCE;
    private volatile boolean logsAbandoned;

    // The monitor protects what follows.
    private PooledObjectState state = PooledObjectState.IDLE;
    private long loans;

    /**
     * Wraps an object.
     *
     * @param object the object
     */
    public TimedObject(T object) {
        this(object, System.nanoTime());
        created.instant();
    }

    /**
     * Wraps an object that was made at another time.
     *
     * @param object the object
     * @param nanoTime the time, by {@link System#nanoTime}
     */
    protected TimedObject(T object, long nanoTime) {
        this.object = object;
        created = new Moment(nanoTime);
        lent = created;
        used = created;
        returned = created;
    }

    /** Is lent since a time of {@link System#nanoTime}. Returns whether it was idle. */
    synchronized boolean allocate(long nanoTime) {
        if (state != PooledObjectState.IDLE) {
            state = state == PooledObjectState.EVICTION ? PooledObjectState.EVICTION_RETURN_TO_HEAD : state;
            return false;
        }
        state = PooledObjectState.ALLOCATED;
        lent = new Moment(nanoTime);
        loans++;
        if (logsAbandoned) {
            borrowedBy.fillInStackTrace();
        }
        return true;
    }

    /** Is returned at a time of {@link System#nanoTime}. Returns whether it was lent. */
    synchronized boolean deallocate(long nanoTime) {
        if (state != PooledObjectState.ALLOCATED && state != PooledObjectState.RETURNING) {
            return false;
        }
        state = PooledObjectState.IDLE;
        returned = new Moment(nanoTime);
        borrowedBy.clear();
        return true;
    }

    @Override
    public boolean allocate() {
        return allocate(System.nanoTime());
    }

    @Override
    public boolean deallocate() {
        return deallocate(System.nanoTime());
    }

    @Override
    public void use() {
        used = Moment.now();
        usedBy.fillInStackTrace();
    }

    @Override
    public synchronized void invalidate() {
        state = PooledObjectState.INVALID;
    }

    @Override
    public synchronized void markAbandoned() {
        state = PooledObjectState.ABANDONED;
    }

    @Override
    public synchronized void markReturning() {
        state = PooledObjectState.RETURNING;
    }

    @Override
    public synchronized boolean startEvictionTest() {
        boolean isIdle = state == PooledObjectState.IDLE;
        state = isIdle ? PooledObjectState.EVICTION : state;
        return isIdle;
    }

    @Override
    public synchronized boolean endEvictionTest(Deque<PooledObject<T>> idleQueue) {
        PooledObjectState before = state;
        if (before == PooledObjectState.EVICTION_RETURN_TO_HEAD) {
            idleQueue.offerFirst(this);
        }
        boolean isEnd = before == PooledObjectState.EVICTION || before == PooledObjectState.EVICTION_RETURN_TO_HEAD;
        state = isEnd ? PooledObjectState.IDLE : before;
        return before == PooledObjectState.EVICTION;
    }

    @Override
    public T getObject() {
        return object;
    }

    @Override
    public synchronized PooledObjectState getState() {
        return state;
    }

    @Override
    public synchronized long getBorrowedCount() {
        return loans;
    }

    @Override
    public Instant getCreateInstant() {
        return created.instant();
    }

    @Override
    public Instant getLastBorrowInstant() {
        return lent.instant();
    }

    @Override
    public Instant getLastReturnInstant() {
        return returned.instant();
    }

    @Override
    public Instant getLastUsedInstant() {
        Moment loan = lent;
        Moment use = used;
        Instant last = use.isAfter(loan) ? use.instant() : loan.instant();
        Instant told = object instanceof TrackedUse ? ((TrackedUse) object).getLastUsedInstant() : last;
        return told.isAfter(last) ? told : last;
    }

    @Override
    public Duration getActiveDuration() {
        Moment loan = lent;
        Moment end = returned;
        return loan.until(end.isAfter(loan) ? end : Moment.now());
    }

    @Override
    public Duration getIdleDuration() {
        return returned.until(Moment.now());
    }

    @Override
    public void setLogAbandoned(boolean value) {
        logsAbandoned = value;
    }

    @Override
    public void setRequireFullStackTrace(boolean value) {
        borrowedBy = CallStackUtils.newCallStack(BORROWED, true, value);
        usedBy = CallStackUtils.newCallStack(USED, false, value);
    }

    @Override
    public void printStackTrace(PrintWriter writer) {
        if (borrowedBy.printStackTrace(writer) | usedBy.printStackTrace(writer)) {
            writer.flush();
        }
    }

    @Override
    public long getCreateTime() {
        return getCreateInstant().toEpochMilli();
    }

    @Override
    public long getLastBorrowTime() {
        return getLastBorrowInstant().toEpochMilli();
    }

    @Override
    public long getLastReturnTime() {
        return getLastReturnInstant().toEpochMilli();
    }

    @Override
    public long getLastUsedTime() {
        return getLastUsedInstant().toEpochMilli();
    }

    @Override
    public long getActiveTimeMillis() {
        return getActiveDuration().toMillis();
    }

    @Override
    public Duration getIdleTime() {
        return getIdleDuration();
    }

    @Override
    public long getIdleTimeMillis() {
        return getIdleDuration().toMillis();
    }

    @Override
    public int compareTo(PooledObject<T> other) {
        int order = getLastReturnInstant().compareTo(other.getLastReturnInstant());
        return order == 0 ? System.identityHashCode(this) - System.identityHashCode(other) : order;
    }

    @Override
    public String toString() {
        return "Object: " + object + ", State: " + getState();
    }
}
