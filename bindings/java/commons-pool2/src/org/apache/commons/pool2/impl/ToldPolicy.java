package org.apache.commons.pool2.impl;

import org.apache.commons.pool2.PoolUtils;
import org.apache.commons.pool2.PooledObject;

/** An eviction policy of the user's own. What it throws is told as the library tells it, and then the object stays. */
final class ToldPolicy<T> implements EvictionPolicy<T> {
    private final GenericObjectPool<T> owner;
    private final EvictionPolicy<T> policy;

    private ToldPolicy(GenericObjectPool<T> owner, EvictionPolicy<T> policy) {
        this.owner = owner;
        this.policy = policy;
    }

    /** Returns the policy of a pool, as it is if it is the library's. */
    static <T> EvictionPolicy<T> of(GenericObjectPool<T> owner) {
        EvictionPolicy<T> policy = owner.getEvictionPolicy();
        boolean isDefault = policy != null && policy.getClass() == DefaultEvictionPolicy.class;
        return isDefault ? policy : new ToldPolicy<>(owner, policy);
    }

    /** Returns the policy that a pool has of its user. */
    static <T> EvictionPolicy<T> inside(EvictionPolicy<T> policy) {
        return policy instanceof ToldPolicy ? ((ToldPolicy<T>) policy).policy : policy;
    }

    @Override
    public boolean evict(EvictionConfig config, PooledObject<T> pooled, int idle) {
        try {
            return policy.evict(config, pooled, idle);
        } catch (Throwable e) {
            PoolUtils.checkRethrow(e);
            owner.swallowException(new Exception(e));
            return false;
        }
    }
}
