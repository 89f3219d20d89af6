import org.apache.commons.pool2.PooledObject;
import org.apache.commons.pool2.impl.EvictionConfig;
import org.apache.commons.pool2.impl.EvictionPolicy;

/** An eviction policy of the user's own: it wants each third object gone if others are idle, and throws for some. */
public final class ThirdsPolicy implements EvictionPolicy<Item> {
    /** One that ends in an error. */
    static final class Erring implements EvictionPolicy<Item> {
        @Override
        public boolean evict(EvictionConfig config, PooledObject<Item> pooled, int idle) {
            throw new AssertionError("the policy ends in an error for " + pooled.getObject());
        }
    }

    @Override
    public boolean evict(EvictionConfig config, PooledObject<Item> pooled, int idle) {
        int number = pooled.getObject().number;
        if (number % 8 == 5) {
            throw new IllegalStateException("the policy throws for " + number);
        }
        return number % 3 == 0 && idle > 1 || config.getIdleSoftEvictDuration().isZero();
    }
}
