package org.apache.commons.pool2.impl;

import java.lang.reflect.Field;
import java.util.ArrayList;
import java.util.Collections;
import java.util.Deque;
import java.util.IdentityHashMap;
import java.util.List;
import java.util.Map;
import org.apache.commons.pool2.PooledObject;
import org.apache.commons.pool2.PooledObjectFactory;
import org.apache.commons.pool2.PooledObjectState;

/**
 * A pool of Commons Pool 2 whose eviction runs continue after the parking position of the object that was examined last, as those of {@code
 * ZuphinkaPool} do. Only one thread may use it.
 */
public final class PlacedPool<T> extends GenericObjectPool<T> {
    private static final Field IDLE = idleObjects();

    /** The objects up to the last one that was examined, with their numbers of loans: one that was lent since was parked again. */
    private final Map<PooledObject<T>, Long> examined = new IdentityHashMap<>();
    private int moves;

    public PlacedPool(PooledObjectFactory<T> factory, GenericObjectPoolConfig<T> config, AbandonedConfig abandoned) {
        super(factory, config);
        setAbandonedConfig(abandoned);
    }

    private static Field idleObjects() {
        try {
            Field field = GenericObjectPool.class.getDeclaredField("idleObjects");
            field.setAccessible(true);
            return field;
        } catch (NoSuchFieldException e) {
            throw new LinkageError("idleObjects", e);
        }
    }

    @SuppressWarnings("unchecked")
    private Deque<PooledObject<T>> queue() {
        try {
            return (Deque<PooledObject<T>>) IDLE.get(this);
        } catch (IllegalAccessException e) {
            throw new LinkageError("idleObjects", e);
        }
    }

    /** Returns how many eviction runs would have continued elsewhere. */
    public int moves() {
        return moves;
    }

    @Override
    public void evict() throws Exception {
        List<PooledObject<T>> idle = new ArrayList<>(queue());
        if (getLifo()) {
            Collections.reverse(idle);
        }
        int first = firstAfterExamined(idle);
        int tests = tests(idle.size());
        if (tests > 0) {
            place(idle, first);
        }
        super.evict();
        if (tests > 0) {
            noteExamined(idle.subList(0, (first + tests - 1) % idle.size() + 1));
        }
    }

    private int firstAfterExamined(List<PooledObject<T>> idle) {
        for (int position = 0; position < idle.size(); position++) {
            PooledObject<T> pooled = idle.get(position);
            Long loans = examined.get(pooled);
            if (loans == null || loans != pooled.getBorrowedCount()) {
                return position;
            }
        }
        return 0;
    }

    private int tests(int idle) {
        long number = getNumTestsPerEvictionRun();
        return (int) (number >= 0 ? Math.min(number, idle) : (idle - number - 1) / -number);
    }

    private void place(List<PooledObject<T>> idle, int first) {
        moves += nextOfIterator(idle.get(0)) == idle.get(first) ? 0 : 1;
        evictionIterator = new EvictionIterator(queue());
        for (int position = 0; position < first; position++) {
            evictionIterator.next();
        }
    }

    /** Returns the object with which the library would continue. Objects that left the queue are passed over. */
    private PooledObject<T> nextOfIterator(PooledObject<T> oldest) {
        while (evictionIterator != null && evictionIterator.hasNext()) {
            PooledObject<T> next = evictionIterator.next();
            if (next.getState() == PooledObjectState.IDLE) {
                return next;
            }
        }
        return oldest;
    }

    private void noteExamined(List<PooledObject<T>> objects) {
        examined.clear();
        objects.forEach(pooled -> examined.put(pooled, pooled.getBorrowedCount()));
    }
}
