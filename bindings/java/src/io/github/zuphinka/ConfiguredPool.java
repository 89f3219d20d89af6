package io.github.zuphinka;

import java.time.Duration;
import java.util.function.Consumer;
import java.util.function.UnaryOperator;
import org.apache.commons.pool2.impl.AbandonedConfig;
import org.apache.commons.pool2.impl.EvictionPolicy;
import org.apache.commons.pool2.impl.GenericObjectPoolConfig;

/** The properties of a pool, each of which may change while the pool is used. */
abstract class ConfiguredPool<T> {
    /** How long objects are lent until they are abandoned, if they cannot be. */
    private static final Duration NEVER_ABANDONED = Duration.ofSeconds(Integer.MAX_VALUE);

    ConfiguredPool() {}

    /** Returns the settings of the moment. */
    abstract CoreSettings<T> settings();

    /** Goes on with the settings that a function makes of those of the moment. It may be called again if these change meanwhile. */
    abstract void change(UnaryOperator<CoreSettings<T>> change);

    /**
     * Goes on with other settings, all of which change at once. Objects, loans and waits stay.
     *
     * <p>Threads that wait are woken if there are more places. A borrow that waits fails if {@code blockWhenExhausted} is false by the time that it is
     * woken and finds nothing. If there are fewer than objects, no object is taken away, and none is made until fewer are
     * present. Calls in progress run the tests that they had when they began. A thread that waits does so for the new {@code maxWait} once it is woken
     * or its time is over, unless its borrow has a limit of its own.
     *
     * <p>The journal is cut if its settings change: the segment before has the old settings, and those after it the new ones ({@link Segment#settings}).
     * This call stores that segment, and if the sink fails, it waits with the settings that it has. With {@link Journal#inFolder} the new settings are in
     * a file {@code settings-POSITION.toml}. {@link ZuphinkaPool#cut} returns the segment of a journal that is kept.
     *
     * <p>As in {@code GenericObjectPool}, {@code fairness} and the properties of JMX stay those of the constructor; {@link
     * ZuphinkaPool#setOvertakeTime} and {@link ZuphinkaPool#setMaxOvertakes} change the former. A policy is made anew of {@code evictionPolicyClassName}.
     *
     * <p>Each setter changes one property in this way, and throws the same.
     *
     * @param config the settings, which are copied; not null
     * @param abandoned when objects are abandoned; null: never
     * @throws IllegalArgumentException as the constructor throws it, for a journal limit that is reached before {@code maxTotal} objects are lent, or a
     *     policy that cannot be made. Nothing changes, as for the others:
     * @throws IllegalStateException if the journal has no room
     * @throws OutOfMemoryError if there is no memory
     * @throws StackOverflowError if the thread has too little of its stack left
     */
    public void reconfigure(GenericObjectPoolConfig<T> config, AbandonedConfig abandoned) {
        change(settings -> settings.with(config, abandoned));
    }

    /**
     * Sets all properties at once, as {@link #reconfigure}, except those of an {@code AbandonedConfig}.
     *
     * @param config the settings, which are copied; not null
     */
    public void setConfig(GenericObjectPoolConfig<T> config) {
        change(settings -> settings.with(config, settings.abandoned));
    }

    /**
     * Sets when objects are abandoned.
     *
     * @param abandoned the settings, which are copied; null: never
     */
    public void setAbandonedConfig(AbandonedConfig abandoned) {
        change(settings -> settings.with(settings.config, abandoned));
    }

    private GenericObjectPoolConfig<T> config() {
        return settings().config;
    }

    private AbandonedConfig abandoned() {
        return settings().abandoned;
    }

    private void set(Consumer<GenericObjectPoolConfig<T>> change) {
        change(settings -> settings.with(change));
    }

    /**
     * Returns how many objects there are at most, lent and idle.
     *
     * @return objects; negative: no limit
     */
    public int getMaxTotal() {
        return config().getMaxTotal();
    }

    /**
     * Sets how many objects there are at most, lent and idle.
     *
     * @param value objects; negative: no limit
     */
    public void setMaxTotal(int value) {
        set(config -> config.setMaxTotal(value));
    }

    /**
     * Returns how many objects are idle at most, after a return.
     *
     * @return objects; negative: no limit
     */
    public int getMaxIdle() {
        return config().getMaxIdle();
    }

    /**
     * Sets how many objects are idle at most, after a return.
     *
     * @param value objects; negative: no limit
     */
    public void setMaxIdle(int value) {
        set(config -> config.setMaxIdle(value));
    }

    /**
     * Returns how many idle objects maintenance makes; no more than {@code maxIdle}.
     *
     * @return objects
     */
    public int getMinIdle() {
        int least = config().getMinIdle();
        return getMaxIdle() < 0 ? least : Math.min(least, getMaxIdle());
    }

    /**
     * Sets how many idle objects maintenance makes; no more than {@code maxIdle}.
     *
     * @param value objects
     */
    public void setMinIdle(int value) {
        set(config -> config.setMinIdle(value));
    }

    /**
     * Returns whether a borrow takes the object that was idle for the shortest time, in place of that for the longest.
     *
     * @return whether it does
     */
    public boolean getLifo() {
        return config().getLifo();
    }

    /**
     * Sets whether a borrow takes the object that was idle for the shortest time, in place of that for the longest.
     *
     * @param value whether it does
     */
    public void setLifo(boolean value) {
        set(config -> config.setLifo(value));
    }

    /**
     * Returns whether a borrow waits if no object and no place is free.
     *
     * @return whether it waits
     */
    public boolean getBlockWhenExhausted() {
        return config().getBlockWhenExhausted();
    }

    /**
     * Sets whether a borrow waits if no object and no place is free.
     *
     * @param value whether it waits
     */
    public void setBlockWhenExhausted(boolean value) {
        set(config -> config.setBlockWhenExhausted(value));
    }

    /**
     * Returns how long a borrow waits at most.
     *
     * @return a time; negative: without a limit
     */
    public Duration getMaxWaitDuration() {
        return config().getMaxWaitDuration();
    }

    /**
     * Sets how long a borrow waits at most.
     *
     * @param value a time; negative: without a limit
     */
    public void setMaxWait(Duration value) {
        set(config -> config.setMaxWait(value));
    }

    /**
     * Returns whether new objects are tested.
     *
     * @return whether they are
     */
    public boolean getTestOnCreate() {
        return config().getTestOnCreate();
    }

    /**
     * Sets whether new objects are tested.
     *
     * @param value whether they are
     */
    public void setTestOnCreate(boolean value) {
        set(config -> config.setTestOnCreate(value));
    }

    /**
     * Returns whether objects are tested before they are lent.
     *
     * @return whether they are
     */
    public boolean getTestOnBorrow() {
        return config().getTestOnBorrow();
    }

    /**
     * Sets whether objects are tested before they are lent.
     *
     * @param value whether they are
     */
    public void setTestOnBorrow(boolean value) {
        set(config -> config.setTestOnBorrow(value));
    }

    /**
     * Returns whether returned objects are tested.
     *
     * @return whether they are
     */
    public boolean getTestOnReturn() {
        return config().getTestOnReturn();
    }

    /**
     * Sets whether returned objects are tested.
     *
     * @param value whether they are
     */
    public void setTestOnReturn(boolean value) {
        set(config -> config.setTestOnReturn(value));
    }

    /**
     * Returns whether an eviction run tests idle objects.
     *
     * @return whether it does
     */
    public boolean getTestWhileIdle() {
        return config().getTestWhileIdle();
    }

    /**
     * Sets whether an eviction run tests idle objects.
     *
     * @param value whether it does
     */
    public void setTestWhileIdle(boolean value) {
        set(config -> config.setTestWhileIdle(value));
    }

    /**
     * Returns how many idle objects an eviction run examines.
     *
     * @return objects; -n: one n-th of the idle ones, rounded up
     */
    public int getNumTestsPerEvictionRun() {
        return config().getNumTestsPerEvictionRun();
    }

    /**
     * Sets how many idle objects an eviction run examines.
     *
     * @param value objects; -n: one n-th of the idle ones, rounded up
     */
    public void setNumTestsPerEvictionRun(int value) {
        set(config -> config.setNumTestsPerEvictionRun(value));
    }

    /**
     * Returns for how long an object is idle at least when an eviction run destroys it for that.
     *
     * @return a time; 0 or negative: it does not
     */
    public Duration getMinEvictableIdleDuration() {
        return config().getMinEvictableIdleDuration();
    }

    /**
     * Sets for how long an object is idle at least when an eviction run destroys it for that.
     *
     * @param value a time; 0 or negative: it does not
     */
    public void setMinEvictableIdle(Duration value) {
        set(config -> config.setMinEvictableIdleTime(value));
    }

    /**
     * Returns the same time for an object beside which more than {@code minIdle} are idle.
     *
     * @return a time; 0 or negative: it does not
     */
    public Duration getSoftMinEvictableIdleDuration() {
        return config().getSoftMinEvictableIdleDuration();
    }

    /**
     * Sets the same time for an object beside which more than {@code minIdle} are idle.
     *
     * @param value a time; 0 or negative: it does not
     */
    public void setSoftMinEvictableIdle(Duration value) {
        set(config -> config.setSoftMinEvictableIdleTime(value));
    }

    /**
     * Returns which idle objects an eviction run destroys.
     *
     * @return the policy; null: that of {@code evictionPolicyClassName}, or the core's
     */
    public EvictionPolicy<T> getEvictionPolicy() {
        return config().getEvictionPolicy();
    }

    /**
     * Sets which idle objects an eviction run destroys.
     *
     * @param value the policy; null: that of {@code evictionPolicyClassName}, or the core's
     */
    public void setEvictionPolicy(EvictionPolicy<T> value) {
        set(config -> config.setEvictionPolicy(value));
    }

    /**
     * Returns the age at which objects are destroyed.
     *
     * @return a time; 0 or negative, as by default: at none
     */
    public Duration getMaxLifetime() {
        return settings().lifetime;
    }

    /**
     * Sets the age at which objects are destroyed: at their return, and by eviction runs while they are idle. No object is taken from its holder.
     *
     * <p>Eviction runs then examine all idle objects. They test as many of them as {@code numTestsPerEvictionRun} says if {@code testWhileIdle} is set, and
     * look at the age of the others. In the journal the age is a failed test, and the return of an object that is too old is an invalidation. {@link
     * ZuphinkaPool#getSettingsText} has {@code testWhileIdle = true} and {@code numTestsPerEvictionRun = -1}. {@link #setConfig} and {@link #reconfigure}
     * leave it as it is.
     *
     * @param value a time; 0 or negative: at none
     */
    public void setMaxLifetime(Duration value) {
        change(settings -> settings.withLifetime(value));
    }

    /**
     * Returns how long the maintenance thread pauses between two runs.
     *
     * @return a time; 0 or negative: there is no such thread
     */
    public Duration getDurationBetweenEvictionRuns() {
        return config().getDurationBetweenEvictionRuns();
    }

    /**
     * Sets how long the maintenance thread pauses between two runs.
     *
     * @param value a time; 0 or negative: there is no such thread
     */
    public void setTimeBetweenEvictionRuns(Duration value) {
        set(config -> config.setTimeBetweenEvictionRuns(value));
    }

    /**
     * Returns how long a close waits for the end of the maintenance thread.
     *
     * @return a time; not null
     */
    public Duration getEvictorShutdownTimeoutDuration() {
        return config().getEvictorShutdownTimeoutDuration();
    }

    /**
     * Sets how long a close waits for the end of the maintenance thread.
     *
     * @param value a time; not null
     */
    public void setEvictorShutdownTimeout(Duration value) {
        set(config -> config.setEvictorShutdownTimeout(value));
    }

    /**
     * Sets the class of the eviction policy, which is made at once.
     *
     * @param name the name of a class; that of {@code DefaultEvictionPolicy}: the core's policy
     */
    public void setEvictionPolicyClassName(String name) {
        set(config -> {
            config.setEvictionPolicy(null);
            config.setEvictionPolicyClassName(name);
        });
    }

    /**
     * Returns whether objects can be abandoned.
     *
     * @return whether the pool has an {@code AbandonedConfig}
     */
    public boolean isAbandonedConfig() {
        return settings().canBeAbandoned();
    }

    /**
     * Returns whether the stack of the borrow of an abandoned object is printed.
     *
     * @return whether it is so; false if objects cannot be abandoned
     */
    public boolean getLogAbandoned() {
        AbandonedConfig abandoned = abandoned();
        return abandoned != null && abandoned.getLogAbandoned();
    }

    /**
     * Returns whether a borrow first takes abandoned objects from their holders.
     *
     * @return whether it is so; false if objects cannot be abandoned
     */
    public boolean getRemoveAbandonedOnBorrow() {
        AbandonedConfig abandoned = abandoned();
        return abandoned != null && abandoned.getRemoveAbandonedOnBorrow();
    }

    /**
     * Returns whether an eviction run takes abandoned objects from their holders.
     *
     * @return whether it is so; false if objects cannot be abandoned
     */
    public boolean getRemoveAbandonedOnMaintenance() {
        AbandonedConfig abandoned = abandoned();
        return abandoned != null && abandoned.getRemoveAbandonedOnMaintenance();
    }

    /**
     * Returns after how long without a use a lent object is abandoned.
     *
     * @return a time; of {@link Integer#MAX_VALUE} seconds if objects cannot be abandoned
     */
    public Duration getRemoveAbandonedTimeoutDuration() {
        AbandonedConfig abandoned = abandoned();
        return abandoned == null ? NEVER_ABANDONED : abandoned.getRemoveAbandonedTimeoutDuration();
    }
}
