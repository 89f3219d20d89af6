import org.apache.commons.pool2.impl.BaseGenericObjectPool;
import org.apache.commons.pool2.impl.GenericObjectPool;

/** A GenericObjectPool that stands in place of Commons Pool's: it is not from where its base class is, which is the library's. */
final class InPlace implements Contestant {
    private final Commons pool;

    InPlace(int objects, boolean isHooked) {
        if (placeOf(GenericObjectPool.class).equals(placeOf(BaseGenericObjectPool.class))) {
            throw new IllegalStateException("GenericObjectPool is that of Commons Pool");
        }
        pool = new Commons(objects, isHooked);
    }

    private static String placeOf(Class<?> some) {
        return some.getProtectionDomain().getCodeSource().getLocation().toString();
    }

    @Override
    public void work(long rounds) throws Exception {
        pool.work(rounds);
    }

    @Override
    public long pairs() {
        return pool.pairs();
    }

    @Override
    public long created() {
        return pool.created();
    }

    @Override
    public void close() {
        pool.close();
    }
}
