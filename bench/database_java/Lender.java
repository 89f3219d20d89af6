import java.sql.Connection;
import java.sql.SQLException;
import javax.sql.DataSource;

/** A pool of connections. */
interface Lender {
    /** Borrows a connection. */
    Loan borrow() throws Exception;

    /** Closes the pool. */
    void close() throws SQLException;

    /** How a loan or a pool ends. */
    interface End {
        void end() throws SQLException;
    }

    /** A loan of a connection. */
    final class Loan implements AutoCloseable {
        final Connection connection;
        private final End end;

        Loan(Connection connection, End end) {
            this.connection = connection;
            this.end = end;
        }

        @Override
        public void close() throws SQLException {
            end.end();
        }
    }

    /** Returns a lender of the connections of a source that ends so. They are returned by their own {@code close}. */
    static Lender of(DataSource source, End end) {
        return new Lender() {
            @Override
            public Loan borrow() throws SQLException {
                Connection connection = source.getConnection();
                return new Loan(connection, connection::close);
            }

            @Override
            public void close() throws SQLException {
                end.end();
            }
        };
    }
}
