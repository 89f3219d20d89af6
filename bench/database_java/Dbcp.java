import org.apache.commons.dbcp2.BasicDataSource;

/** DBCP2's {@code BasicDataSource}, which is over a {@code GenericObjectPool}. */
final class Dbcp implements Opener {
    @Override
    public Lender open(String url) {
        BasicDataSource source = new BasicDataSource();
        source.setUrl(url);
        source.setDefaultAutoCommit(false);
        source.setMaxTotal(CONNECTIONS);
        source.setMaxIdle(CONNECTIONS);
        source.setTestOnBorrow(true);
        source.setMaxWaitMillis(LONGEST_WAIT);
        return Lender.of(source, source::close);
    }
}
