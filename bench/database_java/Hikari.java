import com.zaxxer.hikari.HikariDataSource;

/** HikariCP's {@code HikariDataSource}. */
final class Hikari implements Opener {
    static {
        // HikariCP tests a connection unless it was used within so many milliseconds. So it tests each.
        System.setProperty("com.zaxxer.hikari.aliveBypassWindowMs", "-1");
    }

    @Override
    public Lender open(String url) {
        HikariDataSource source = new HikariDataSource();
        source.setJdbcUrl(url);
        source.setAutoCommit(false);
        source.setMaximumPoolSize(CONNECTIONS);
        source.setConnectionTimeout(LONGEST_WAIT);
        return Lender.of(source, source::close);
    }
}
