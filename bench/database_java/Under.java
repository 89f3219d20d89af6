import io.github.zuphinka.ZuphinkaPool;
import java.time.Duration;
import org.apache.commons.dbcp2.DriverManagerConnectionFactory;
import org.apache.commons.dbcp2.PoolableConnection;
import org.apache.commons.dbcp2.PoolableConnectionFactory;
import org.apache.commons.dbcp2.PoolingDataSource;
import org.apache.commons.pool2.impl.GenericObjectPoolConfig;

/** DBCP2's {@code PoolingDataSource} over a {@code ZuphinkaPool}. */
final class Under implements Opener {
    @Override
    public Lender open(String url) {
        PoolableConnectionFactory factory = new PoolableConnectionFactory(new DriverManagerConnectionFactory(url), null);
        factory.setDefaultAutoCommit(false);
        GenericObjectPoolConfig<PoolableConnection> config = new GenericObjectPoolConfig<>();
        config.setMaxTotal(CONNECTIONS);
        config.setMaxIdle(CONNECTIONS);
        config.setTestOnBorrow(true);
        config.setMaxWait(Duration.ofMillis(LONGEST_WAIT));
        ZuphinkaPool<PoolableConnection> pool = new ZuphinkaPool<>(factory, config);
        pool.setMaxOvertakes(Integer.MAX_VALUE);
        factory.setPool(pool);
        PoolingDataSource<PoolableConnection> source = new PoolingDataSource<>(pool);
        return Lender.of(source, source::close);
    }
}
