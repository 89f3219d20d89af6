import io.github.zuphinka.ZuphinkaPool;

/** A ZuphinkaPool. */
final class Zuphinka implements Contestant {
    private final ZuphinkaPool<Holders.Holder> pool;

    Zuphinka(int objects, boolean isHooked) {
        pool = new ZuphinkaPool<>(Holders.of(isHooked), Holders.config(objects));
    }

    @Override
    public void work(long rounds) throws Exception {
        for (long round = 0; round < rounds; round++) {
            Holders.Holder holder = pool.borrowObject();
            holder.uses = round;
            pool.returnObject(holder);
        }
    }

    @Override
    public long pairs() {
        return Math.min(pool.getBorrowedCount(), pool.getReturnedCount());
    }

    @Override
    public long created() {
        return pool.getCreatedCount();
    }

    @Override
    public void close() {
        pool.close();
    }
}
