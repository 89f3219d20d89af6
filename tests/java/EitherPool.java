import io.github.zuphinka.ZuphinkaPool;
import java.time.Duration;
import java.util.function.IntSupplier;
import org.apache.commons.pool2.ObjectPool;
import org.apache.commons.pool2.PooledObjectFactory;
import org.apache.commons.pool2.UsageTracking;
import org.apache.commons.pool2.impl.AbandonedConfig;
import org.apache.commons.pool2.impl.GenericObjectPool;
import org.apache.commons.pool2.impl.GenericObjectPoolConfig;

/** A pool of one of the two libraries, with the calls that both have and their interfaces have not. */
final class EitherPool<T> {
    final ObjectPool<T> calls;
    private final UsageTracking<T> tracking;
    private final Borrow<T> borrow;
    private final Expectations.Act evict;
    private final Expectations.Act prepare;
    private final IntSupplier listed;
    private final IntSupplier waiters;

    private interface Borrow<T> {
        T call(Duration longest) throws Exception;
    }

    private <P extends ObjectPool<T> & UsageTracking<T>> EitherPool(P pool, Borrow<T> borrow, Expectations.Act evict, Expectations.Act prepare,
            IntSupplier listed, IntSupplier waiters) {
        calls = pool;
        tracking = pool;
        this.borrow = borrow;
        this.evict = evict;
        this.prepare = prepare;
        this.listed = listed;
        this.waiters = waiters;
    }

    T borrow(Duration longest) throws Exception {
        return borrow.call(longest);
    }

    void evict() throws Exception {
        evict.run();
    }

    void prepare() throws Exception {
        prepare.run();
    }

    void use(T object) {
        tracking.use(object);
    }

    int listed() {
        return listed.getAsInt();
    }

    int waiters() {
        return waiters.getAsInt();
    }

    /** Makes a pool of the library that is named: {@code zuphinka} or {@code commons-pool}. No object is abandoned if {@code abandoned} is null. */
    static <T> EitherPool<T> of(String library, PooledObjectFactory<T> factory, GenericObjectPoolConfig<T> config, AbandonedConfig abandoned) {
        switch (library) {
            case "zuphinka":
                ZuphinkaPool<T> own = new ZuphinkaPool<>(factory, config, abandoned);
                return new EitherPool<>(own, own::borrowObject, own::evict, own::preparePool, () -> own.listAllObjects().size(), own::getNumWaiters);
            case "commons-pool":
                GenericObjectPool<T> other = new GenericObjectPool<>(factory, config);
                if (abandoned != null) {
                    other.setAbandonedConfig(abandoned);
                }
                return new EitherPool<>(other, other::borrowObject, other::evict, other::preparePool, () -> other.listAllObjects().size(),
                        other::getNumWaiters);
            default:
                throw new IllegalArgumentException(library);
        }
    }
}
