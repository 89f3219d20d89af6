package io.github.zuphinka;

import java.lang.ref.WeakReference;
import java.util.HashSet;
import java.util.Set;
import java.util.concurrent.TimeUnit;
import java.util.concurrent.locks.LockSupport;

/** The construction of an object by the current thread, which may still be in the constructor of a subclass when other threads have the object. */
final class Construction {
    private static final long PAUSE = TimeUnit.MILLISECONDS.toNanos(1);

    private final WeakReference<Thread> constructor = new WeakReference<>(Thread.currentThread());
    /** The names of the classes below the one whose constructor makes this. */
    private final Set<String> subclasses = new HashSet<>();
    private volatile boolean isOver;

    Construction(Object constructed, Class<?> type) {
        for (Class<?> subclass = constructed.getClass(); subclass != type; subclass = subclass.getSuperclass()) {
            subclasses.add(subclass.getName());
        }
        isOver = subclasses.isEmpty();
    }

    /** Waits until it is over, if another thread constructs. */
    void await() {
        while (!isOver && constructor.get() != Thread.currentThread()) {
            isOver = !isRunning();
            if (!isOver) {
                LockSupport.parkNanos(PAUSE);
            }
        }
    }

    private boolean isRunning() {
        Thread thread = constructor.get();
        if (thread == null) {
            return false;
        }
        for (StackTraceElement frame : thread.getStackTrace()) {
            if (frame.getMethodName().equals("<init>") && subclasses.contains(frame.getClassName())) {
                return true;
            }
        }
        return false;
    }
}
