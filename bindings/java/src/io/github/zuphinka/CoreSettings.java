package io.github.zuphinka;

import java.nio.charset.StandardCharsets;
import java.time.Duration;
import java.util.concurrent.TimeUnit;
import java.util.function.Consumer;
import org.apache.commons.pool2.impl.AbandonedConfig;
import org.apache.commons.pool2.impl.GenericObjectPoolConfig;

/** The settings of a pool at a time: copies of its configurations, which do not change, and their text for the core. */
final class CoreSettings<T> {
    /** The longest time that the core takes, in milliseconds: some 285,000 years. */
    static final long MOST_MILLIS = 1L << 53;
    /** For how long a waiter is overtaken without a limit, and how often after that, unless the pool is told otherwise. */
    static final long DEFAULT_OVERTAKE_MILLIS = 5;
    static final int DEFAULT_OVERTAKES = 64;
    /** The most entries that a journal stores. */
    static final long MOST_ENTRIES = 1L << 32;

    final GenericObjectPoolConfig<T> config;
    /** Null: objects cannot be abandoned. */
    final AbandonedConfig abandoned;
    /** The user's eviction policy, with the idle times that it gets; null: that of the core. With it the core evicts by no time, and tests each object. */
    final UserPolicy<T> policy;
    private final long journalLimit;
    /** The age at which objects are destroyed; 0 or negative: at none. Then {@link Long#MAX_VALUE} nanoseconds. */
    final Duration lifetime;
    private final long lifetimeNanos;
    final boolean testOnBorrow;
    final boolean testOnReturn;
    final boolean testWhileIdle;
    final boolean reclaimsOnBorrow;
    final boolean reclaimsOnMaintenance;
    final boolean isUsageTracked;
    final int maxTotal;
    private final long maxWaitMillis;
    /** How long a borrow waits at most, in nanoseconds; {@link Long#MAX_VALUE} without a limit. */
    final long maxWaitNanos;
    /** After how many nanoseconds without a use a lent object is abandoned, if objects can be. */
    final long abandonedNanos;
    private final String text;
    /** By which the core knows them; 0 until they are those of the pool. It changes with the lock of the pool, before they are. */
    int number;

    /**
     * Copies configurations.
     *
     * @throws IllegalArgumentException if they ask for what the pool does not have, with the name of the property
     */
    CoreSettings(GenericObjectPoolConfig<T> config, AbandonedConfig abandoned, long journalLimit, Duration lifetime) {
        if (journalLimit < 1 || journalLimit > MOST_ENTRIES) {
            throw new IllegalArgumentException("journal limit: " + journalLimit + " is not from 1 to " + MOST_ENTRIES);
        }
        this.config = config.clone();
        this.abandoned = AbandonedConfig.copy(abandoned);
        this.journalLimit = journalLimit;
        this.lifetime = lifetime;
        lifetimeNanos = lifetime.isNegative() || lifetime.isZero() ? Long.MAX_VALUE : Maintenance.nanos(lifetime);
        policy = UserPolicy.of(this.config);
        if (policy != null) {
            this.config.setEvictionPolicy(policy.policy); // a copy with other values has the same one, and makes none of its name
        }
        testOnBorrow = config.getTestOnBorrow();
        testOnReturn = config.getTestOnReturn();
        testWhileIdle = config.getTestWhileIdle();
        reclaimsOnBorrow = canBeAbandoned() && abandoned.getRemoveAbandonedOnBorrow();
        reclaimsOnMaintenance = canBeAbandoned() && abandoned.getRemoveAbandonedOnMaintenance();
        isUsageTracked = canBeAbandoned() && abandoned.getUseUsageTracking();
        maxTotal = config.getMaxTotal();
        maxWaitMillis = millis(config.getMaxWaitDuration(), -1);
        maxWaitNanos = maxWaitMillis < 0 ? Long.MAX_VALUE : TimeUnit.MILLISECONDS.toNanos(maxWaitMillis);
        abandonedNanos = canBeAbandoned() ? TimeUnit.MILLISECONDS.toNanos(millis(abandoned.getRemoveAbandonedTimeoutDuration(), 0)) : 0;
        text = textOfConfig() + (canBeAbandoned() ? textOfAbandoned() : "");
    }

    /** Returns these settings with other values of some properties. */
    CoreSettings<T> with(Consumer<GenericObjectPoolConfig<T>> change) {
        GenericObjectPoolConfig<T> changed = config.clone();
        change.accept(changed);
        return with(changed, abandoned);
    }

    /** Returns the settings of other configurations for the same pool, whose fairness stays. */
    CoreSettings<T> with(GenericObjectPoolConfig<T> otherConfig, AbandonedConfig otherAbandoned) {
        GenericObjectPoolConfig<T> copied = otherConfig.clone();
        copied.setFairness(config.getFairness());
        return new CoreSettings<>(copied, otherAbandoned, journalLimit, lifetime);
    }

    /** Returns the same settings with another lifetime of objects. */
    CoreSettings<T> withLifetime(Duration other) {
        return new CoreSettings<>(config, abandoned, journalLimit, other);
    }

    /** Returns whether objects are destroyed for their age. */
    boolean hasLifetime() {
        return lifetimeNanos < Long.MAX_VALUE;
    }

    /** Returns whether an object has reached the age at which it is destroyed, at a time of {@link System#nanoTime}. */
    boolean isTooOld(Member<T> member, long nanoTime) {
        return hasLifetime() && nanoTime - member.madeAt >= lifetimeNanos;
    }

    /** Returns whether an eviction run of the core tests each object, since not only the core says which ones it destroys. */
    boolean examines() {
        return policy != null || hasLifetime();
    }

    /** Returns how many objects an eviction run tests, of so many idle ones. */
    long testsOf(long idle) {
        long tests = config.getNumTestsPerEvictionRun();
        return tests >= 0 ? tests : (idle - tests - 1) / -tests;
    }

    /** Returns whether objects can be abandoned. */
    boolean canBeAbandoned() {
        return abandoned != null;
    }

    private String textOfConfig() {
        return key("blockWhenExhausted", config.getBlockWhenExhausted())
                + key("journalLimit", journalLimit)
                + key("lifo", config.getLifo())
                + key("maxIdle", config.getMaxIdle())
                + key("maxTotal", maxTotal)
                + key("maxWaitMillis", maxWaitMillis)
                + key("minEvictableIdleMillis", policy == null ? millis(config.getMinEvictableIdleDuration(), -1) : -1)
                + key("minIdle", Math.max(0, config.getMinIdle()))
                + key("numTestsPerEvictionRun", hasLifetime() ? -1 : config.getNumTestsPerEvictionRun())
                + key("softMinEvictableIdleMillis", policy == null ? millis(config.getSoftMinEvictableIdleDuration(), -1) : -1)
                + key("testOnBorrow", testOnBorrow)
                + key("testOnCreate", config.getTestOnCreate())
                + key("testOnReturn", testOnReturn)
                + key("testWhileIdle", testWhileIdle || examines());
    }

    private String textOfAbandoned() {
        return "[abandoned]\n"
                + key("removeAbandonedOnBorrow", reclaimsOnBorrow)
                + key("removeAbandonedOnMaintenance", reclaimsOnMaintenance)
                + key("removeAbandonedTimeoutMillis", millis(abandoned.getRemoveAbandonedTimeoutDuration(), 0));
    }

    private static String key(String name, Object value) {
        return name + " = " + value + "\n";
    }

    /** Returns a time in milliseconds, rounded up, since 0 may stand for no time or for no limit; {@code negative} for a negative one. */
    static long millis(Duration time, long negative) {
        if (time.isNegative()) {
            return negative;
        }
        return time.getSeconds() >= MOST_MILLIS / 1000 ? MOST_MILLIS : time.plusNanos(999_999).toMillis();
    }

    /** Returns the settings as a TOML document, as {@code pool check} reads it. */
    String text() {
        return text;
    }

    /** Returns the bytes of the text. */
    byte[] bytes() {
        return text.getBytes(StandardCharsets.UTF_8);
    }

    /** Returns the flags of {@link Core#reconfigure}. */
    int flags() {
        return canBeAbandoned() ? Core.RECLAIMS : 0;
    }

    /** Returns the exception for settings that the core rejects with a status. */
    IllegalArgumentException rejected(long status) {
        return new IllegalArgumentException("zuphinka: the core rejects the settings, with status " + -status + ":\n" + text);
    }
}
