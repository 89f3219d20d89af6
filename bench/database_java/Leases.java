import io.github.zuphinka.Lease;
import io.github.zuphinka.ZuphinkaPool;
import java.sql.Connection;
import java.sql.DriverManager;
import java.sql.SQLException;
import java.time.Duration;
import org.apache.commons.pool2.BasePooledObjectFactory;
import org.apache.commons.pool2.PooledObject;
import org.apache.commons.pool2.impl.DefaultPooledObject;
import org.apache.commons.pool2.impl.GenericObjectPoolConfig;

/** A {@code ZuphinkaPool} of the driver's connections, lent by leases. */
final class Leases implements Opener {
    private static final class Connections extends BasePooledObjectFactory<Connection> {
        private final String url;

        Connections(String url) {
            this.url = url;
        }

        @Override
        public Connection create() throws SQLException {
            Connection connection = DriverManager.getConnection(url);
            connection.setAutoCommit(false);
            return connection;
        }

        @Override
        public PooledObject<Connection> wrap(Connection connection) {
            return new DefaultPooledObject<>(connection);
        }

        @Override
        public boolean validateObject(PooledObject<Connection> pooled) {
            try {
                return pooled.getObject().isValid(0);
            } catch (SQLException e) {
                return false;
            }
        }

        /** Ends a transaction that its holder has left open, as DBCP2 and HikariCP do. */
        @Override
        public void passivateObject(PooledObject<Connection> pooled) throws SQLException {
            pooled.getObject().rollback();
        }

        @Override
        public void destroyObject(PooledObject<Connection> pooled) throws SQLException {
            pooled.getObject().close();
        }
    }

    @Override
    public Lender open(String url) {
        GenericObjectPoolConfig<Connection> config = new GenericObjectPoolConfig<>();
        config.setMaxTotal(CONNECTIONS);
        config.setMaxIdle(CONNECTIONS);
        config.setTestOnBorrow(true);
        config.setMaxWait(Duration.ofMillis(LONGEST_WAIT));
        ZuphinkaPool<Connection> pool = new ZuphinkaPool<>(new Connections(url), config);
        pool.setMaxOvertakes(Integer.MAX_VALUE);
        return new Lender() {
            @Override
            public Loan borrow() throws Exception {
                Lease<Connection> lease = pool.lease();
                return new Loan(lease.get(), lease::close);
            }

            @Override
            public void close() {
                pool.close();
            }
        };
    }
}
