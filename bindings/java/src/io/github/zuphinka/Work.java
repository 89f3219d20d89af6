package io.github.zuphinka;

import java.util.Collection;
import java.util.NoSuchElementException;
import java.util.function.Consumer;
import org.apache.commons.pool2.BasePooledObjectFactory;
import org.apache.commons.pool2.DestroyMode;
import org.apache.commons.pool2.PooledObject;
import org.apache.commons.pool2.PooledObjectFactory;
import org.apache.commons.pool2.TrackedUse;
import org.apache.commons.pool2.impl.AbandonedConfig;

/** The work of the factory on the objects of a pool, as its calls are asked for it. It runs without the lock of the pool. */
final class Work<T> {
    /** Stands for a test that found an object invalid without throwing anything. */
    static final Exception INVALID = new InvalidObject();

    private final PooledObjectFactory<T> factory;
    private final Objects<T> objects;
    private final Consumer<Throwable> swallowing;
    final Wrappers<T> wrappers = new Wrappers<>();
    private final Destructions<T> destructions;
    /** Whether the factory has work to activate and to passivate an object. */
    final boolean activates;
    private final boolean passivates;
    /** Whether it has work to test and to destroy one. */
    private final boolean validates;
    private final boolean destroys;
    /** The settings of the moment. They change with the lock of the pool. */
    private volatile CoreSettings<T> settings;
    /** Whether some object says itself when it was last used. */
    private volatile boolean hasTracked;

    private static final class InvalidObject extends Exception {
        private static final long serialVersionUID = 1;

        InvalidObject() {
            super("The object is not valid", null, false, false);
        }
    }

    Work(PooledObjectFactory<T> factory, CoreSettings<T> settings, Objects<T> objects, Consumer<Throwable> swallowing) {
        this.factory = factory;
        this.objects = objects;
        this.swallowing = swallowing;
        destructions = new Destructions<>(factory, objects, this::swallow);
        activates = !inherits("activateObject", PooledObject.class);
        passivates = !inherits("passivateObject", PooledObject.class);
        validates = !inherits("validateObject", PooledObject.class);
        destroys = !inherits("destroyObject", PooledObject.class) || !inherits("destroyObject", PooledObject.class, DestroyMode.class);
        use(settings);
    }

    /** Goes on with other settings. */
    void use(CoreSettings<T> next) {
        wrappers.setUnseen(!activates && !next.testOnBorrow && isReturnedBare(next) && !next.canBeAbandoned() && next.policy == null
                && !(next.testWhileIdle && validates) && !destroys);
        settings = next;
    }

    /** Returns whether a returned object is idle without any work. */
    boolean isReturnedBare(CoreSettings<T> some) {
        return !passivates && !some.testOnReturn;
    }

    /**
     * Returns whether a method of the factory is the one of {@link BasePooledObjectFactory}, which does nothing. It is taken for another one if the
     * factory has a method of a class that is missing: then none of its methods can be looked up.
     */
    private boolean inherits(String method, Class<?>... parameters) {
        try {
            Class<?> declaring = factory.getClass().getMethod(method, parameters).getDeclaringClass();
            return factory instanceof BasePooledObjectFactory && declaring.isAssignableFrom(BasePooledObjectFactory.class);
        } catch (NoSuchMethodException | LinkageError e) {
            return false;
        }
    }

    /** Returns whether some object says itself when it was last used. */
    boolean hasTracked() {
        return hasTracked;
    }

    /** Returns the objects of the pool. It takes no lock: those that come or go meanwhile may be missing. */
    Collection<Member<T>> all() {
        return objects.all();
    }

    /** Returns the action with which an idle test begins. */
    int firstOfTest() {
        return activates ? Core.ACTION_ACTIVATE : Core.ACTION_VALIDATE;
    }

    /** Returns the flags by which the core asks for this work. */
    int flags() {
        return Core.VALIDATES | (activates ? Core.ACTIVATES : 0) | (passivates ? Core.PASSIVATES : 0);
    }

    /** Tells a failure that no call throws, if it is one. */
    void swallow(Throwable failure) {
        if (failure != null && failure != INVALID) {
            swallowing.accept(failure);
        }
    }

    /** Does what a call is asked for. Returns the report. */
    int act(Call<T> call) {
        try {
            boolean isExamined = call.kind == Core.KIND_EVICT && call.action != Core.ACTION_DESTROY && call.settings.examines();
            return isExamined ? examine(call) : actOnObject(call);
        } catch (Throwable e) {
            return failed(call, e);
        }
    }

    private int actOnObject(Call<T> call) throws Exception {
        switch (call.action) {
            case Core.ACTION_MAKE:
                make(call);
                return Core.REPORT_MADE;
            case Core.ACTION_ACTIVATE:
                activate(call);
                return Core.REPORT_SUCCEEDED;
            case Core.ACTION_VALIDATE:
                return validate(call);
            case Core.ACTION_PASSIVATE:
                factory.passivateObject(call.member.pooled);
                return Core.REPORT_SUCCEEDED;
            default:
                destructions.destroy(call);
                return Core.REPORT_SUCCEEDED;
        }
    }

    /**
     * Does what is part of the idle test of an object that an eviction run examines for its age, or by the user's policy. An object that is too old, or
     * that the policy wants gone, fails its test. Any other is tested if the user wants tests, and passes otherwise. Returns the report.
     */
    private int examine(Call<T> call) throws Exception {
        boolean isFirst = call.action == firstOfTest();
        if (isFirst && call.settings.isTooOld(call.member, System.nanoTime())) {
            return Core.REPORT_FAILED;
        }
        call.testsLeft -= isFirst ? 1 : 0;
        if (call.testsLeft < 0) {
            return Core.REPORT_SUCCEEDED;
        }
        if (isFirst && call.settings.policy != null && isEvicted(call)) {
            return Core.REPORT_FAILED;
        }
        return call.settings.testWhileIdle ? actOnObject(call) : Core.REPORT_SUCCEEDED;
    }

    /** Asks the policy for an object. One for which it throws stays. */
    private boolean isEvicted(Call<T> call) {
        try {
            return call.settings.policy.evicts(call.member.pooled, call.idle);
        } catch (Throwable e) {
            if (!call.keepsError(e)) {
                swallow(e);
            }
            return false;
        }
    }

    /** Keeps a failure until it is thrown or told. Returns the report. */
    private int failed(Call<T> call, Throwable failure) {
        call.isUnusual = true;
        if (!call.keepsError(failure)) {
            if (call.action == Core.ACTION_DESTROY && call.kind != Core.KIND_INVALIDATE) {
                call.destroyFault = failure;
            } else {
                call.fault = failure;
            }
        }
        return call.isToGiveUp() ? call.giveUp() : Core.REPORT_FAILED;
    }

    /** After some work was reported: destroys what the call reclaimed, and tells the failures that no call throws. */
    void settle(Call<T> call) {
        if (call.reclaimed != null) {
            destructions.destroyReclaimed(call, settings.abandoned);
        }
        boolean isTold = call.kind == Core.KIND_RETURN || call.kind == Core.KIND_EVICT;
        if (isTold && call.action != Core.ACTION_DESTROY) {
            swallow(call.fault);
            call.fault = null;
        }
        swallow(call.destroyFault);
        call.destroyFault = null;
    }

    // New objects.

    private void make(Call<T> call) throws Exception {
        Member<T> member = call.member;
        member.pooled = factory.makeObject();
        member.madeAt = System.nanoTime();
        if (member.pooled == null) {
            throw new NullPointerException("makeObject() returned null");
        }
        boolean isAdded;
        try {
            isAdded = hasAdded(member, call.settings.abandoned);
            if (isAdded && call.kind == Core.KIND_BORROW && call.isActivated) {
                tellNew(member);
            }
        } catch (Throwable e) {
            destructions.destroyQuietly(member);
            throw e;
        }
        if (!isAdded) {
            throw new IllegalStateException("makeObject() returned an object that the pool has");
        }
    }

    /** Adds a new object to those of the pool, and returns whether it was not there. */
    private boolean hasAdded(Member<T> member, AbandonedConfig abandoned) {
        boolean isTracked = member.pooled.getObject() instanceof TrackedUse;
        if (abandoned != null && abandoned.getLogAbandoned()) {
            member.pooled.setLogAbandoned(true);
            member.pooled.setRequireFullStackTrace(abandoned.getRequireFullStackTrace());
        }
        wrappers.add(member, isTracked);
        if (isTracked) {
            hasTracked = true; // another thread may have set it meanwhile
        }
        return objects.add(member);
    }

    /** Tells the wrapper of a new object that this is lent, in place of an activation. */
    private void tellNew(Member<T> member) {
        try {
            wrappers.tellLoan(member, member.madeAt);
        } catch (Exception e) {
            throw none("Unable to activate object", e);
        }
    }

    static NoSuchElementException none(String message, Throwable fault) {
        NoSuchElementException none = new NoSuchElementException(message);
        none.initCause(fault == INVALID ? null : fault);
        return none;
    }

    // Loans.

    private void activate(Call<T> call) throws Exception {
        call.isActivated = true;
        if (call.kind == Core.KIND_BORROW) {
            wrappers.tellLoan(call.member, call.now);
        }
        factory.activateObject(call.member.pooled);
    }

    private int validate(Call<T> call) {
        if (call.kind == Core.KIND_BORROW && call.isActivated) {
            wrappers.tellLoan(call.member, call.now);
        }
        if (!factory.validateObject(call.member.pooled)) {
            call.fault = INVALID;
            return Core.REPORT_FAILED;
        }
        if (call.kind == Core.KIND_BORROW && !activates) {
            wrappers.tellLoan(call.member, System.nanoTime());
        }
        return Core.REPORT_SUCCEEDED;
    }

    /**
     * Tells the wrapper of a returned object, once the last work of the return is done, before another thread may have it. Returns the report, also of a
     * failure in that.
     */
    int tellReturn(Call<T> call, int report) {
        boolean isLast = call.action == Core.ACTION_PASSIVATE || call.action == Core.ACTION_VALIDATE && !passivates;
        if (call.kind != Core.KIND_RETURN || !isLast || report != Core.REPORT_SUCCEEDED) {
            return report;
        }
        try {
            wrappers.tellReturn(call.member, call.now);
            return report;
        } catch (Throwable e) {
            return failed(call, e);
        }
    }
}
