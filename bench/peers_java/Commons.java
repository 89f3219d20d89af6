import org.apache.commons.pool2.impl.GenericObjectPool;

/** A GenericObjectPool of Commons Pool 2. */
final class Commons implements Contestant {
    private final GenericObjectPool<Holders.Holder> pool;

    Commons(int objects, boolean isHooked) {
        pool = new GenericObjectPool<>(Holders.of(isHooked), Holders.config(objects));
    }

    @Override
    public void work(long rounds) throws Exception {
        for (long round = 0; round < rounds; round++) {
            Holders.Holder holder = pool.borrowObject();
            holder.uses = round;
            pool.returnObject(holder);
        }
    }

    @Override
    public long pairs() {
        return Math.min(pool.getBorrowedCount(), pool.getReturnedCount());
    }

    @Override
    public long created() {
        return pool.getCreatedCount();
    }

    @Override
    public void close() {
        pool.close();
    }
}
