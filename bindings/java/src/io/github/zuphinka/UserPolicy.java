package io.github.zuphinka;

import org.apache.commons.pool2.PooledObject;
import org.apache.commons.pool2.impl.BaseObjectPoolConfig;
import org.apache.commons.pool2.impl.DefaultEvictionPolicy;
import org.apache.commons.pool2.impl.EvictionConfig;
import org.apache.commons.pool2.impl.EvictionPolicy;
import org.apache.commons.pool2.impl.GenericObjectPoolConfig;

/** An eviction policy of the user's own, and the settings that it is asked with. */
final class UserPolicy<T> {
    final EvictionPolicy<T> policy;
    private final EvictionConfig config;

    private UserPolicy(EvictionPolicy<T> policy, EvictionConfig config) {
        this.policy = policy;
        this.config = config;
    }

    /**
     * Returns the policy of a configuration; null if it has the default one, which is the core's.
     *
     * @throws IllegalArgumentException if no policy can be made of the class that it names
     */
    static <T> UserPolicy<T> of(GenericObjectPoolConfig<T> config) {
        EvictionPolicy<T> policy = config.getEvictionPolicy() == null ? named(config.getEvictionPolicyClassName()) : config.getEvictionPolicy();
        if (policy == null || policy.getClass() == DefaultEvictionPolicy.class) {
            return null;
        }
        int minIdle = config.getMaxIdle() < 0 ? config.getMinIdle() : Math.min(config.getMinIdle(), config.getMaxIdle());
        return new UserPolicy<>(policy,
                new EvictionConfig(config.getMinEvictableIdleDuration(), config.getSoftMinEvictableIdleDuration(), minIdle));
    }

    /** Makes a policy of the class with a name, which the context's class loader finds or that of Commons Pool; null for the default one. */
    @SuppressWarnings("unchecked")
    private static <T> EvictionPolicy<T> named(String name) {
        if (name == null || name.equals(BaseObjectPoolConfig.DEFAULT_EVICTION_POLICY_CLASS_NAME)) {
            return null;
        }
        try {
            return (EvictionPolicy<T>) classNamed(name).getConstructor().newInstance();
        } catch (ReflectiveOperationException | LinkageError e) {
            throw new IllegalArgumentException("evictionPolicyClassName: no policy can be made of " + name, e);
        }
    }

    private static Class<?> classNamed(String name) throws ClassNotFoundException {
        try {
            Class<?> found = Class.forName(name, true, Thread.currentThread().getContextClassLoader());
            if (EvictionPolicy.class.isAssignableFrom(found)) {
                return found;
            }
        } catch (ClassNotFoundException e) {
            // The other class loader may find it.
        }
        Class<?> found = Class.forName(name, true, EvictionPolicy.class.getClassLoader());
        if (EvictionPolicy.class.isAssignableFrom(found)) {
            return found;
        }
        throw new ClassNotFoundException(name + " is no " + EvictionPolicy.class.getName());
    }

    /** Returns whether the policy wants an idle object gone, of a number of idle ones. */
    boolean evicts(PooledObject<T> idleObject, long idle) {
        return policy.evict(config, idleObject, (int) idle);
    }
}
