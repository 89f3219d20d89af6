package io.github.zuphinka;

import java.lang.ref.WeakReference;
import java.nio.file.Path;
import java.time.Duration;
import java.util.ArrayList;
import java.util.List;
import java.util.NoSuchElementException;
import java.util.Set;
import java.util.concurrent.ConcurrentHashMap;
import java.util.concurrent.TimeUnit;
import java.util.concurrent.atomic.AtomicBoolean;
import java.util.function.Consumer;
import java.util.function.UnaryOperator;
import javax.management.ObjectName;
import org.apache.commons.pool2.DestroyMode;
import org.apache.commons.pool2.ObjectPool;
import org.apache.commons.pool2.PooledObject;
import org.apache.commons.pool2.PooledObjectFactory;
import org.apache.commons.pool2.UsageTracking;
import org.apache.commons.pool2.impl.AbandonedConfig;
import org.apache.commons.pool2.impl.BaseObjectPoolConfig;
import org.apache.commons.pool2.impl.GenericObjectPoolConfig;

/**
 * A pool with the interface and the behaviour of Commons Pool's {@code GenericObjectPool}, whose decisions are those of a proved core: which object
 * is lent, kept, tested or destroyed, and when one is made.
 *
 * <p>Proved is each step of the core, and the one line of the journal that records it; what a call does after each step; and which thread that waits
 * is woken. Tested, not proved, is this class: its lock, the sleep of its threads, and the objects. The factory's methods run without the lock.
 *
 * <p>The configurations are copied, and later changes to them have no effect. {@link #reconfigure} and the setters change the settings of a pool while
 * it is used. Any number of threads may use a pool.
 *
 * <p>Each call that takes a step may throw three exceptions that it does not list. They leave the pool as it was before the step:
 * <ul>
 * <li>an {@link IllegalStateException} whose message begins with "Journal full", if the journal has no room: a kept one until it is cut, a stored one
 * until its sink stores what waits. The failure of the sink is its cause, if it failed. Otherwise the sink is slow, as the message says: 16 MiB of text
 * wait for it, and it takes longer than a borrow waits;
 * <li>an {@link OutOfMemoryError}, if there is no memory. The call may be tried again;
 * <li>a {@link StackOverflowError}, if the thread has less than 120 KiB of its stack left; or than 24 KiB besides what the virtual machine keeps for
 * itself by other options, such as {@code -XX:StackShadowPages}.
 * </ul>
 * The return and the invalidation of a lent object never throw the first two, nor does the close of an open pool before it has closed and cleared
 * it, unless the heap of the virtual machine is full. Work begun on an object is always completed.
 *
 * <p>An {@link Error} that the factory throws is thrown by each call, once the place of its object is free. So is one of a wrapper. Of several, as of
 * a close, the first is thrown once all objects are destroyed.
 *
 * @param <T> the type of the objects
 */
public class ZuphinkaPool<T> extends MeasuredPool<T> implements ObjectPool<T>, UsageTracking<T> {
    private final Work<T> work;
    private final LockedPool<T> lockedPool;
    private final Storing<T> storing;
    private final Calls<T> calls;
    private final Numbers numbers;
    private final Leaks<T> leaks;
    private final Construction construction = new Construction(this, ZuphinkaPool.class);
    /** The threads that are in {@link #swallowed}. */
    private final Set<Thread> reporting = ConcurrentHashMap.newKeySet();
    private final ObjectName beanName;
    private final AtomicBoolean isRegistered = new AtomicBoolean();
    /** The context's class loader of the thread that makes the pool. */
    private final WeakReference<ClassLoader> context = new WeakReference<>(Thread.currentThread().getContextClassLoader());
    /** Protects what follows. */
    private final Object upkeep = new Object();
    /** Null: the settings have none, or the pool is closed. */
    private Maintenance maintenance;
    /** The threads that end after the rounds in which they are. */
    private final List<Maintenance> stopped = new ArrayList<>();
    private boolean isEnded;

    /**
     * Makes a pool with the default configuration, whose journal is dropped.
     *
     * @param factory makes, activates, tests, passivates and destroys the objects
     * @throws IllegalArgumentException if the factory is null
     */
    public ZuphinkaPool(PooledObjectFactory<T> factory) {
        this(factory, new GenericObjectPoolConfig<>());
    }

    /**
     * Makes a pool whose journal is dropped.
     *
     * @param factory makes, activates, tests, passivates and destroys the objects
     * @param config the settings; not null
     * @throws IllegalArgumentException as {@link #ZuphinkaPool(PooledObjectFactory, GenericObjectPoolConfig, AbandonedConfig, Journal)}
     */
    public ZuphinkaPool(PooledObjectFactory<T> factory, GenericObjectPoolConfig<T> config) {
        this(factory, config, null);
    }

    /**
     * Makes a pool that takes abandoned objects from their holders, and whose journal is dropped.
     *
     * @param factory makes, activates, tests, passivates and destroys the objects
     * @param config the settings; not null
     * @param abandoned when objects are abandoned; null: never
     * @throws IllegalArgumentException as {@link #ZuphinkaPool(PooledObjectFactory, GenericObjectPoolConfig, AbandonedConfig, Journal)}
     */
    public ZuphinkaPool(PooledObjectFactory<T> factory, GenericObjectPoolConfig<T> config, AbandonedConfig abandoned) {
        this(factory, config, abandoned, Journal.dropped());
    }

    /**
     * Makes a pool whose journal is dropped, kept or stored. If the configuration has JMX enabled, it registers an MBean. If it has a positive time
     * between eviction runs, it starts a daemon thread that calls {@link #maintain}, with the context's class loader of the thread that makes the pool.
     *
     * @param factory makes, activates, tests, passivates and destroys the objects
     * @param config the settings; not null
     * @param abandoned when objects are abandoned; null: never
     * @param journal what becomes of the journal; not null
     * @throws IllegalArgumentException if the factory is null, the limit of the journal is out of its range, or is reached before {@code maxTotal}
     *     objects are lent; or if no policy can be made of the class that {@code evictionPolicyClassName} names
     * @throws java.io.UncheckedIOException if the journal's folder cannot be made
     * @throws OutOfMemoryError if there is no memory for the pool
     * @throws LinkageError if the native library is not found or cannot be loaded
     */
    public ZuphinkaPool(PooledObjectFactory<T> factory, GenericObjectPoolConfig<T> config, AbandonedConfig abandoned, Journal journal) {
        if (factory == null) {
            throw new IllegalArgumentException("Factory may not be null");
        }
        CoreSettings<T> settings = new CoreSettings<>(config, abandoned, journal.limit, Duration.ZERO);
        work = new Work<>(factory, settings, objects, this::swallow);
        lockedPool = new LockedPool<>(settings, journal, work);
        storing = new Storing<>(lockedPool);
        calls = new Calls<>(lockedPool, storing);
        numbers = new Numbers(lockedPool);
        leaks = new Leaks<>(this, objects, lockedPool, numbers, context);
        try {
            beanName = config.getJmxEnabled() ? PoolBean.register(this, config, factory.getClass().getName()) : null;
            isRegistered.set(beanName != null);
            lockedPool.name = nameOf(beanName, config, factory);
            startMaintenance();
            storing.startFlusher(journal, context);
        } catch (Throwable e) {
            unregister();
            storing.undo();
            throw e;
        }
    }

    /** Returns what tells a pool from others in messages: the name of its MBean. Without one it is the prefix of that, unless that is the default. */
    private static String nameOf(ObjectName bean, GenericObjectPoolConfig<?> config, PooledObjectFactory<?> factory) {
        if (bean != null) {
            return bean.toString();
        }
        String prefix = config.getJmxNamePrefix();
        boolean isDefault = prefix == null || prefix.equals(BaseObjectPoolConfig.DEFAULT_JMX_NAME_PREFIX);
        return isDefault ? "of " + factory.getClass().getName() : prefix;
    }

    /** Unregisters the MBean, unless that was done: its name may be another pool's then. */
    private void unregister() {
        if (isRegistered.getAndSet(false)) {
            PoolBean.unregister(beanName);
        }
    }

    // Settings.

    @Override
    final CoreSettings<T> settings() {
        return lockedPool.settings();
    }

    @Override
    final void change(UnaryOperator<CoreSettings<T>> change) {
        CoreSettings<T> known;
        do {
            known = settings();
        } while (!lockedPool.isReconfigured(known, change.apply(known)));
        startMaintenance();
        storing.storeWaiting();
    }

    /** Has a maintenance thread with the pause of the settings, or none, in place of one with another pause. */
    private void startMaintenance() {
        synchronized (upkeep) {
            Duration pause = getDurationBetweenEvictionRuns();
            if (maintenance != null && !maintenance.pause.equals(pause)) {
                stopMaintenance();
            }
            if (maintenance == null && !isEnded && !pause.isNegative() && !pause.isZero()) {
                maintenance = Maintenance.start(this, pause, context);
            }
        }
    }

    /** Has no maintenance thread any more. The caller protects what this changes. */
    private void stopMaintenance() {
        stopped.removeIf(Maintenance::isOver);
        if (maintenance != null) {
            stopped.add(maintenance);
            maintenance.stop();
            maintenance = null;
        }
    }

    // Borrows.

    /**
     * Lends an object: an idle one, or a new one if there is a free place. Otherwise it waits, as long as the configuration says. Idle objects that
     * fail their activation or their test are destroyed, and the next one is tried. If the configuration says so, it first takes abandoned objects
     * from their holders. Once the thread that has waited longest was overtaken for as long as {@link #setOvertakeTime} allows, and then as often as
     * {@link #setMaxOvertakes} allows, it queues behind that one, and makes no entry meanwhile.
     *
     * @return an object that no other caller has, until it is returned, invalidated or abandoned
     * @throws NoSuchElementException if no object and no place is free, and the configuration says not to wait or the time is over: the message has the
     *     pool's name, the limit, how long the borrow waited, and the numbers of objects and of other borrows that wait. Or if a new object failed its
     *     activation or its test. What the factory threw is the cause, if it threw
     * @throws IllegalStateException if the pool is closed, also while it waits
     * @throws InterruptedException if the thread is interrupted while it waits, or is when its time is over
     * @throws Exception if the factory fails to make an object; the same exception. If it returns null a {@link NullPointerException}, and an {@link
     *     IllegalStateException} if the pool has the object
     */
    @Override
    public T borrowObject() throws Exception {
        return borrow(-1);
    }

    /**
     * Lends an object as {@link #borrowObject()}, with a limit of its own to the wait.
     *
     * @param longest the longest wait, in place of the configured one; negative: without a limit. Not null
     * @return an object that no other caller has, until it is returned, invalidated or abandoned
     * @throws Exception as {@link #borrowObject()}
     */
    public T borrowObject(Duration longest) throws Exception {
        boolean isEndless = longest.isNegative() || longest.getSeconds() > TimeUnit.DAYS.toSeconds(10_000);
        return borrow(isEndless ? Long.MAX_VALUE : longest.toNanos());
    }

    /**
     * Lends an object as {@link #borrowObject()}, with a limit of its own to the wait.
     *
     * @param longestMillis the longest wait in milliseconds, in place of the configured one; negative: without a limit
     * @return an object that no other caller has, until it is returned, invalidated or abandoned
     * @throws Exception as {@link #borrowObject()}
     */
    public T borrowObject(long longestMillis) throws Exception {
        return borrowObject(Duration.ofMillis(longestMillis));
    }

    /**
     * Lends an object as {@link #borrowObject()}, for a {@code try} block, at whose end it is returned:
     *
     * <pre>{@code
     * try (Lease<Connection> lease = pool.lease()) {
     *     lease.get().send(request);
     * }
     * }</pre>
     *
     * @return a lease of an object that no other caller has, until the lease is over or the object abandoned
     * @throws Exception as {@link #borrowObject()}
     */
    public Lease<T> lease() throws Exception {
        return Lease.of(this);
    }

    /**
     * Lends an object as {@link #lease()}, with a limit of its own to the wait.
     *
     * @param longest the longest wait, in place of the configured one; negative: without a limit. Not null
     * @return a lease of an object that no other caller has, until the lease is over or the object abandoned
     * @throws Exception as {@link #borrowObject()}
     */
    public Lease<T> lease(Duration longest) throws Exception {
        return Lease.of(this, longest);
    }

    /**
     * Sets how long a borrow waits while any number of later borrows may overtake it: 5 milliseconds by default, and 0 if the configuration has {@code
     * fairness}. It is rounded up to whole milliseconds.
     *
     * <p>A later borrow overtakes the oldest waiter if it takes an object or a place, and leaves too few for those who wait. Overtaking costs no sleep, so
     * a long time lends more objects per second where many wait. A short one makes the longest wait shorter.
     *
     * @param time a time from 0; not null
     * @throws IllegalArgumentException if it is negative
     */
    public void setOvertakeTime(Duration time) {
        if (time.isNegative()) {
            throw new IllegalArgumentException("overtakeTime: " + time + " is negative");
        }
        numbers.setOvertakeMillis(CoreSettings.millis(time, 0));
    }

    /**
     * Returns how long a borrow waits while any number of later borrows may overtake it.
     *
     * @return a time from 0
     */
    public Duration getOvertakeTime() {
        return Duration.ofMillis(numbers.overtakeMillis());
    }

    /**
     * Sets how often a borrow is overtaken at most once it has waited for {@link #setOvertakeTime}: 64 by default, and 0 if the configuration has {@code
     * fairness}. With 0 and no time the pool is fair. {@code GenericObjectPool} has no limit unless {@code fairness} is set.
     *
     * <p>Once the oldest waiter was overtaken so often, or has waited for that time, was woken and found nothing, later borrows queue behind it until it
     * has its object or leaves. A borrow that does not wait then fails as if nothing were there.
     *
     * <p>With {@link Integer#MAX_VALUE} there is no limit, as in {@code GenericObjectPool}, and no borrow queues while there is an object or a place.
     *
     * @param times a number from 0
     * @throws IllegalArgumentException if it is negative
     */
    public void setMaxOvertakes(int times) {
        if (times < 0) {
            throw new IllegalArgumentException("maxOvertakes: " + times + " is negative");
        }
        numbers.setMaxOvertakes(times);
    }

    /**
     * Returns how often a borrow is overtaken at most once it has waited for {@link #getOvertakeTime}.
     *
     * @return a number from 0
     */
    public int getMaxOvertakes() {
        return numbers.maxOvertakes();
    }

    /**
     * Returns whether the pool is fair: no borrow overtakes one that waits.
     *
     * @return whether {@link #getOvertakeTime} and {@link #getMaxOvertakes} are 0
     */
    public boolean getFairness() {
        return getOvertakeTime().isZero() && getMaxOvertakes() == 0;
    }

    private T borrow(long longestNanos) throws Exception {
        long first = System.nanoTime();
        for (;;) {
            Member<T> member = calls.borrow(first, longestNanos);
            if (isTold(member)) {
                leaks.noteLoan(member);
                tellLent(member, first);
                return member.pooled.getObject();
            }
        }
    }

    private void tellLent(Member<T> member, long first) {
        try {
            lent(member.pooled, member.lentAt() - first, member.idleNanos());
        } catch (Throwable e) {
            swallow(e); // the caller is to have the object
        }
    }

    /**
     * Receives each loan, at the end of its borrow and in its thread. It does nothing. Override it to count them. What it throws is passed to {@link
     * #swallowed}, and the object is lent.
     *
     * @param wrapper that of the object
     * @param waitedNanos how long the borrow took, in nanoseconds: its wait, and the calls of the factory
     * @param idleNanos for how long the object was idle before, since its return or since it was made
     */
    protected void lent(PooledObject<T> wrapper, long waitedNanos, long idleNanos) {}

    /** Tells the wrapper of an object that it is lent. If that fails the object is destroyed, and this returns false. */
    private boolean isTold(Member<T> member) throws Exception {
        try {
            work.wrappers.tellLoan(member, member.lentAt());
            calls.uses.remember(member);
            return true;
        } catch (Throwable e) {
            endLoan(member);
            rethrow(e);
            return false;
        }
    }

    /** Ends a loan of which nobody knows: destroys the object, which becomes idle if there is no memory for that call. */
    private void endLoan(Member<T> member) {
        try {
            invalidateQuietly(member);
        } catch (OutOfMemoryError e) {
            if (!member.isGone) {
                calls.giveBack(member, System.nanoTime());
            }
            throw e;
        }
    }

    private static void rethrow(Throwable fault) {
        if (fault instanceof Error) {
            throw (Error) fault;
        }
    }

    /** Destroys a lent object whose wrapper failed, whatever the factory throws but an error. */
    private void invalidateQuietly(Member<T> member) {
        try {
            calls.make(Core.KIND_INVALIDATE, member, DestroyMode.NORMAL);
        } catch (Exception e) {
            swallow(e);
        }
    }

    // Returns.

    /**
     * Returns a lent object. It becomes idle, or it is destroyed: if it fails its test or its passivation, if {@code maxIdle} objects are idle, or if
     * the pool is closed. What the factory throws is passed to {@link #swallowed}, except for a failed test. If objects can be abandoned, the return
     * of an object that is no longer of the pool has no effect.
     *
     * @param object a lent object
     * @throws IllegalStateException if the object was returned before, or is not of this pool and objects cannot be abandoned
     */
    @Override
    public void returnObject(T object) {
        giveBack(object);
    }

    /**
     * Does the same, and returns how long the loan was.
     *
     * @param object a lent object
     * @return nanoseconds from 0; negative if the object is no longer of the pool
     * @throws IllegalStateException as {@link #returnObject}
     */
    protected long giveBack(T object) {
        Member<T> member = objects.find(object);
        if (member == null) {
            missing("Returned object not currently part of this pool");
            return -1;
        }
        Leaks.forget(member);
        long now = System.nanoTime();
        long nanos = member.loanNanos(now);
        while (!isReturned(member, settings(), now)) {
            // Other settings came between.
        }
        storing.storeDue();
        return nanos;
    }

    /** Returns an object by these settings, if the pool still has them. Returns whether it had; or true if the object is destroyed. */
    private boolean isReturned(Member<T> member, CoreSettings<T> of, long now) {
        boolean isDestroyed = work.isReturnedBare(of) && !isToldOfReturn(member, now);
        return isDestroyed || calls.isGivenBack(member, of, now);
    }

    /** Tells the wrapper of an object that it is returned, before another thread may have it. If that fails it is destroyed, and this returns false. */
    private boolean isToldOfReturn(Member<T> member, long now) {
        try {
            work.wrappers.tellReturn(member, now);
            return true;
        } catch (Throwable e) {
            invalidateQuietly(member);
            rethrow(e);
            swallow(e);
            return false;
        }
    }

    private void missing(String message) {
        if (!settings().canBeAbandoned()) {
            throw new IllegalStateException(message);
        }
    }

    /**
     * Destroys a lent object and frees its place. If objects can be abandoned, it has no effect on an object that is no longer of the pool.
     *
     * @param object a lent object
     * @throws IllegalStateException if the object is of this pool and not lent, or is not of this pool and objects cannot be abandoned
     * @throws Exception if the factory fails to destroy it. Its place is free all the same
     */
    @Override
    public void invalidateObject(T object) throws Exception {
        invalidateObject(object, DestroyMode.NORMAL);
    }

    /** Does the same, and passes a mode on to the factory. */
    @Override
    public void invalidateObject(T object, DestroyMode mode) throws Exception {
        Member<T> member = objects.find(object);
        if (member == null) {
            missing("Invalidated object not currently part of this pool");
            return;
        }
        Leaks.forget(member);
        calls.make(Core.KIND_INVALIDATE, member, mode);
        storing.storeDue();
    }

    /**
     * Notes that its holder uses a lent object now, if the configuration tracks usage: the time until it is abandoned begins again, and its wrapper
     * records the stack of the call. Otherwise it has no effect, nor on an object that is not of this pool.
     *
     * @param object a lent object
     */
    @Override
    public void use(T object) {
        Member<T> member = settings().isUsageTracked ? objects.find(object) : null;
        if (member == null) {
            return;
        }
        member.pooled.use();
        calls.make(Core.KIND_TOUCH, member);
        calls.uses.remember(member);
        storing.storeDue();
    }

    // Upkeep.

    /**
     * Makes one more idle object, if there is a free place. One that fails its test is destroyed, without an exception.
     *
     * @throws IllegalStateException if the pool is closed
     * @throws Exception if the factory fails to make or to passivate it, or its test throws; the same exception. Its place is free
     */
    @Override
    public void addObject() throws Exception {
        calls.make(Core.KIND_ADD, null, DestroyMode.NORMAL);
        storing.storeDue();
    }

    /**
     * Makes idle objects until {@code minIdle} are idle, as far as there are places. One that fails its test is destroyed, and no other is made then.
     * It has no effect on a closed pool.
     *
     * @throws Exception if the factory fails to make or to passivate one; the same exception. Those made before stay idle
     */
    public void preparePool() throws Exception {
        calls.make(Core.KIND_FILL, null, DestroyMode.NORMAL);
        storing.storeDue();
    }

    /**
     * Maintains the pool: {@link #evict}, then {@link #preparePool}. It stores a segment that a sink did not store before. The maintenance thread
     * calls it.
     *
     * @throws IllegalStateException if the pool is closed
     * @throws Exception as {@link #preparePool}
     */
    public void maintain() throws Exception {
        evict();
        preparePool();
        storing.storePending();
    }

    /**
     * Examines idle objects, as many as {@code numTestsPerEvictionRun} says. It destroys those that were idle for too long, and those that fail their
     * test if {@code testWhileIdle} is set. Then, if the configuration says so, it takes abandoned objects from their holders and destroys them. What
     * the factory throws is passed to {@link #swallowed}.
     *
     * <p>If the configuration has an {@code evictionPolicy} of the user's own, that says which objects were idle for too long. It is asked without the
     * pool's lock, about an object that no borrow gets meanwhile. If it throws, the object stays, and {@link #swallowed} receives what it threw; an
     * {@link Error} is thrown once the run is over. The core then has the settings {@code testWhileIdle = true} and no idle times, and the journal
     * shows each examined object as tested, and one that the policy wants gone as one that failed.
     *
     * @throws IllegalStateException if the pool is closed
     * @throws Exception if an override does; this method throws none that is checked
     */
    public void evict() throws Exception {
        calls.make(Core.KIND_EVICT, null);
        CoreSettings<T> settings = settings();
        if (settings.reclaimsOnMaintenance) {
            calls.uses.note(Core.KIND_RECLAIM, System.nanoTime(), -1);
            calls.make(Core.KIND_RECLAIM, null);
        }
        storing.storeDue();
    }

    /** Destroys all idle objects, except those under an idle test. What the factory throws is passed to {@link #swallowed}. */
    @Override
    public void clear() {
        calls.make(Core.KIND_CLEAR, null);
        storing.storeDue();
    }

    /**
     * Closes the pool: nothing is lent any more, threads that wait get an {@link IllegalStateException}, and idle objects are destroyed. Lent ones
     * are destroyed when they are returned. It ends the maintenance thread, for which it waits as long as {@code evictorShutdownTimeout} says,
     * unregisters the MBean, and stores the rest of a journal that is stored, also if the factory throws an {@link Error}. The entries of later
     * returns are stored by these, each time that there are as many as objects that are still lent, and the others in time ({@link Journal#storeEvery}).
     * What the factory and the sink throw otherwise is passed to {@link #swallowed}. A second close destroys nothing.
     *
     * @throws OutOfMemoryError if there is no memory to cut the rest of a journal that is stored; the pool is closed, and {@link #flushJournal} may
     *     be tried again
     */
    @Override
    public void close() {
        try {
            calls.make(Core.KIND_CLOSE, null);
        } finally {
            if (lockedPool.isClosed()) {
                end();
            }
        }
    }

    /** Ends what a closed pool has besides its objects. */
    private void end() {
        List<Maintenance> ending;
        synchronized (upkeep) {
            isEnded = true;
            stopMaintenance();
            ending = List.copyOf(stopped);
        }
        leaks.stop();
        Maintenance.await(ending, settings().config.getEvictorShutdownTimeoutDuration());
        unregister();
        storing.endJournal();
    }

    // Leaks.

    /**
     * Returns how long a loan lasts at most that is not told as a leak.
     *
     * @return a time; 0 or negative, as by default: none is told
     */
    public Duration getLeakDetectionThreshold() {
        return leaks.threshold();
    }

    /**
     * Has each loan told to the listener once ({@link #setLeakListener}) that lasts longer than a limit: of those that begin from now on. A daemon thread
     * looks for them, ten times within the limit and once a second at least. It ends with the pool. Each borrow then stores its time, and the name of its
     * thread. Nothing is taken from its holder: an {@code AbandonedConfig} does that.
     *
     * @param value the limit; 0 or negative: none is told
     */
    public void setLeakDetectionThreshold(Duration value) {
        leaks.setThreshold(value);
    }

    /**
     * Sets what is told of leaks, in place of the one before: a logger, for example. It runs in the thread that looks for them, without the pool's lock,
     * and may call the pool. What it throws is passed to {@link #swallowed}. Without one nobody is told.
     *
     * @param listener what is told; not null
     */
    public void setLeakListener(Consumer<Leak> listener) {
        leaks.setListener(java.util.Objects.requireNonNull(listener));
    }

    /**
     * Sets whether each borrow notes its stack, for {@link Leak#stack}, while leaks are told. That takes some microseconds of each borrow, and more on a
     * deep stack.
     *
     * @param value whether it does; false by default
     */
    public void setLeakStackTraces(boolean value) {
        leaks.setStacks(value);
    }

    /**
     * Returns whether each borrow notes its stack, while leaks are told.
     *
     * @return whether it does
     */
    public boolean getLeakStackTraces() {
        return leaks.hasStacks();
    }

    /** Tells the leaks that were not told. */
    final void findLeaks() {
        leaks.find();
    }

    // Its state.

    @Override
    final Numbers numbers() {
        return numbers;
    }

    /**
     * Returns whether the pool is closed.
     *
     * @return true from the first {@link #close} on
     */
    public boolean isClosed() {
        return lockedPool.isClosed();
    }

    /**
     * Returns the name of the pool's MBean.
     *
     * @return the name, also after the pool was closed; null if it was not registered
     */
    public ObjectName getJmxName() {
        return beanName;
    }

    /**
     * Returns the name of the pool, as its messages have it, and its numbers of objects.
     *
     * @return a text in one line
     */
    @Override
    public String toString() {
        Counts counts = numbers.counts();
        String objects = ", lent " + counts.lent() + ", reserved " + counts.reserved() + ", idle " + counts.idle();
        String limits = ", waiting " + getNumWaiters() + ", maxTotal " + getMaxTotal();
        return "ZuphinkaPool[pool " + lockedPool.name + objects + limits + (isClosed() ? ", closed]" : "]");
    }

    // The journal.

    /**
     * Returns the number of this thread in the journals of all pools. Threads are numbered from 0, in the order in which they first take a step of a
     * pool or call this method. After 2<sup>32</sup> threads the numbers begin again.
     *
     * @return a number from 0 to 2<sup>32</sup> - 1, always the same in one thread
     */
    public static long callerNumber() {
        return Integer.toUnsignedLong(Callers.number());
    }

    /**
     * Returns the settings as a file in TOML, by which {@code pool check} checks the journal since they last changed.
     *
     * @return the text, which is the same until the settings change
     */
    public String getSettingsText() {
        return settings().text();
    }

    /**
     * Returns the journal since it was last cut, or the settings changed. The pool is unchanged.
     *
     * @return the entries, with the base that they continue
     * @throws OutOfMemoryError if there is no memory for the text
     */
    public Segment getJournal() {
        return storing.segment();
    }

    /**
     * Cuts a journal that is kept or dropped, and returns what was cut. Objects, waits and counts are unchanged. The entries of a journal that is stored
     * are stored by {@link #flushJournal}.
     *
     * <p>If the settings changed since the last cut, this first returns the entries before the change, with the settings that they had, and cuts nothing.
     * The next call returns those after it.
     *
     * @return the entries since the last cut, with the base that they continue
     * @throws UnsupportedOperationException if the journal is stored: these entries would be missing there. Nothing is cut
     * @throws OutOfMemoryError if there is no memory; then nothing is cut
     */
    public Segment cut() {
        return storing.cut();
    }

    /**
     * Stores all entries of a journal that is stored, now: they are stored in some time by themselves ({@link Journal#storeEvery}). It has no effect on
     * one that is kept or dropped. A failure of the sink is passed to {@link #swallowed}, and the segment waits.
     *
     * @throws OutOfMemoryError if there is no memory; then nothing is cut
     * @throws StackOverflowError if the thread has too little of its stack left; then nothing is stored
     */
    public void flushJournal() {
        storing.flushJournal();
    }

    /**
     * Returns the folder with the journal ({@link Journal#inFolder}).
     *
     * @return the folder that was made for this pool; null if its journal is in none
     */
    public Path getJournalFolder() {
        return storing.folder();
    }

    /**
     * Receives each failure that no call throws: those of destructions, passivations and tests of returned or idle objects, of the maintenance
     * thread, and of a sink. It does nothing. Override it to log them. It runs without the pool's lock, in the thread whose call failed, and so in
     * several threads at once. It may call the pool: in a thread that is in it, it is not called again. Nor is it by the maintenance thread before the
     * constructor of a subclass has ended. What it throws is ignored, since the call that failed has to be completed.
     *
     * @param failure what the factory or the sink threw; an {@link Error} as the cause of an {@link IllegalStateException}
     */
    protected void swallowed(Exception failure) {}

    /** Passes a failure to {@link #swallowed}, unless this thread is in it. */
    final void swallow(Throwable failure) {
        try {
            if (Maintenance.isCurrent()) {
                construction.await(); // another thread has the pool from the constructor, which may wait for it
            }
            if (reporting.add(Thread.currentThread())) {
                report(failure);
            }
        } catch (Throwable e) {
            // No object may lose its place by that.
        }
    }

    private void report(Throwable failure) {
        try {
            swallowed(failure instanceof Exception ? (Exception) failure : new IllegalStateException(failure));
        } finally {
            reporting.remove(Thread.currentThread());
        }
    }
}
