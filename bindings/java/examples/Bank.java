import com.sun.net.httpserver.HttpServer;
import io.github.zuphinka.Journal;
import io.github.zuphinka.ZuphinkaPool;
import java.io.IOException;
import java.net.InetAddress;
import java.net.InetSocketAddress;
import java.nio.charset.StandardCharsets;
import java.nio.file.Path;
import java.sql.Connection;
import java.sql.PreparedStatement;
import java.sql.ResultSet;
import java.sql.SQLException;
import java.sql.Statement;
import java.time.Duration;
import java.util.ArrayList;
import java.util.List;
import java.util.Random;
import java.util.concurrent.Callable;
import java.util.concurrent.ExecutorService;
import java.util.concurrent.Executors;
import java.util.concurrent.Future;
import java.util.concurrent.atomic.AtomicInteger;
import org.apache.commons.dbcp2.DelegatingConnection;
import org.apache.commons.dbcp2.DriverManagerConnectionFactory;
import org.apache.commons.dbcp2.PoolableConnection;
import org.apache.commons.dbcp2.PoolableConnectionFactory;
import org.apache.commons.dbcp2.PoolingDataSource;
import org.apache.commons.pool2.impl.GenericObjectPoolConfig;

/**
 * Eight threads transfer money between accounts in a database, over DBCP2's {@code PoolingDataSource} with a {@code ZuphinkaPool} of four
 * connections. What fails is printed, and tried again.
 *
 * <p>{@code Bank FOLDER} has a database of its own in memory. Each thread makes 125 transfers, and some connections break.
 *
 * <p>{@code Bank FOLDER URL SECONDS} has one in PostgreSQL, such as {@code jdbc:postgresql://localhost/bank?user=me&password=mine}.
 *
 * <p>Both store the journal of the pool in the folder, which must have none yet. With the property {@code metrics.port} they serve the pool's
 * metrics at {@code http://127.0.0.1:PORT/metrics}.
 */
public final class Bank {
    private static final String IN_MEMORY = "jdbc:h2:mem:bank;MODE=PostgreSQL;DB_CLOSE_DELAY=-1;LOCK_TIMEOUT=60000";
    private static final int ACCOUNTS = 20;
    private static final int THREADS = 8;
    /** How many transfers each thread makes in memory, and after how many of them its connection breaks. */
    private static final int TRANSFERS = 125;
    private static final int BREAKS_AFTER = 50;
    private static final Duration PAUSE_AFTER_FAILURE = Duration.ofMillis(50);

    private static final AtomicInteger MADE = new AtomicInteger();
    private static final AtomicInteger FAILED = new AtomicInteger();

    private Bank() {}

    private static ZuphinkaPool<PoolableConnection> open(String url, Path folder) throws IOException {
        PoolableConnectionFactory factory = new PoolableConnectionFactory(new DriverManagerConnectionFactory(url), null);
        factory.setDefaultAutoCommit(false);
        GenericObjectPoolConfig<PoolableConnection> config = new GenericObjectPoolConfig<>();
        config.setMaxTotal(4);
        config.setMinIdle(1);
        config.setTestOnBorrow(true);
        config.setMaxWait(Duration.ofSeconds(60));
        config.setTimeBetweenEvictionRuns(Duration.ofMillis(100));
        ZuphinkaPool<PoolableConnection> pool = new ZuphinkaPool<>(factory, config, null, Journal.inFolder(folder));
        // PoolingDataSource does that for a GenericObjectPool alone. Else each Connection.close throws, and the connection stays lent.
        factory.setPool(pool);
        return pool;
    }

    /** Serves the pool's metrics at the port of this machine that the property names, if it is set, until what is returned is closed. */
    private static AutoCloseable serveMetrics(ZuphinkaPool<?> pool) throws IOException {
        Integer port = Integer.getInteger("metrics.port");
        if (port == null) {
            return () -> {};
        }
        HttpServer server = HttpServer.create(new InetSocketAddress(InetAddress.getLoopbackAddress(), port), 0);
        server.createContext("/metrics", exchange -> {
            byte[] text = pool.metrics("bank").toString().getBytes(StandardCharsets.UTF_8);
            exchange.getResponseHeaders().set("Content-Type", "application/openmetrics-text; version=1.0.0; charset=utf-8");
            exchange.sendResponseHeaders(200, text.length);
            exchange.getResponseBody().write(text);
            exchange.close();
        });
        server.start();
        return () -> server.stop(0);
    }

    private static void create(Connection connection) throws SQLException {
        try (Statement statement = connection.createStatement()) {
            statement.execute("create table if not exists account (id int primary key, euros int not null)");
            statement.execute("create table if not exists transfer (worker int not null, source int not null, target int not null, euros int not null)");
            for (int id = 0; id < ACCOUNTS; id++) {
                statement.execute("insert into account values (" + id + ", 100) on conflict do nothing");
            }
            connection.commit();
        }
    }

    private static void execute(Connection connection, String command, int... numbers) throws SQLException {
        try (PreparedStatement statement = connection.prepareStatement(command)) {
            for (int place = 0; place < numbers.length; place++) {
                statement.setInt(place + 1, numbers[place]);
            }
            statement.executeUpdate();
        }
    }

    /** Transfers from one account to another with a greater id, so that no two transfers wait for each other. */
    private static void transfer(Connection connection, int worker, Random random) throws SQLException {
        int source = random.nextInt(ACCOUNTS - 1);
        int target = source + 1 + random.nextInt(ACCOUNTS - 1 - source);
        int euros = random.nextInt(100);
        execute(connection, "insert into transfer values (?, ?, ?, ?)", worker, source, target, euros);
        execute(connection, "update account set euros = euros + ? where id = ?", -euros, source);
        execute(connection, "update account set euros = euros + ? where id = ?", euros, target);
        connection.commit();
    }

    /** Transfers until the time is over; in memory, a number of times. */
    private static Void work(PoolingDataSource<PoolableConnection> source, int worker, boolean isInMemory, long end) throws InterruptedException {
        Random random = new Random(worker);
        for (int count = 1; isInMemory ? count <= TRANSFERS : System.nanoTime() - end < 0; count++) {
            try (Connection connection = source.getConnection()) {
                transfer(connection, worker, random);
                MADE.incrementAndGet();
                if (isInMemory && count % BREAKS_AFTER == 0) {
                    ((DelegatingConnection<?>) connection).getInnermostDelegate().close();
                }
            } catch (SQLException failure) {
                System.err.println("worker " + worker + ": " + failure.getMessage());
                FAILED.incrementAndGet();
                Thread.sleep(PAUSE_AFTER_FAILURE.toMillis());
            }
        }
        return null;
    }

    private static int sum(Connection connection) throws SQLException {
        try (Statement statement = connection.createStatement(); ResultSet rows = statement.executeQuery("select sum(euros) from account")) {
            rows.next();
            return rows.getInt(1);
        }
    }

    /** Runs the threads to their ends. */
    private static void runAll(List<Callable<Void>> works) throws Exception {
        ExecutorService threads = Executors.newFixedThreadPool(works.size());
        List<Future<Void>> ended = threads.invokeAll(works);
        threads.shutdown();
        for (Future<Void> work : ended) {
            work.get();
        }
    }

    public static void main(String[] words) throws Exception {
        if (words.length != 1 && words.length != 3) {
            System.err.println("usage: Bank FOLDER [URL SECONDS]");
            System.exit(1);
        }
        boolean isInMemory = words.length == 1;
        ZuphinkaPool<PoolableConnection> pool = open(isInMemory ? IN_MEMORY : words[1], Path.of(words[0]));
        long begin = System.nanoTime();
        long end = begin + Duration.ofSeconds(isInMemory ? 0 : Integer.parseInt(words[2])).toNanos();
        int euros;
        try (PoolingDataSource<PoolableConnection> source = new PoolingDataSource<>(pool); AutoCloseable metrics = serveMetrics(pool)) {
            source.setAccessToUnderlyingConnectionAllowed(true);
            try (Connection connection = source.getConnection()) {
                create(connection);
            }
            List<Callable<Void>> works = new ArrayList<>();
            for (int number = 0; number < THREADS; number++) {
                int worker = number;
                works.add(() -> work(source, worker, isInMemory, end));
            }
            runAll(works);
            try (Connection connection = source.getConnection()) {
                euros = sum(connection);
            }
        }
        long rate = MADE.get() * Duration.ofSeconds(1).toNanos() / (System.nanoTime() - begin);
        System.out.println(MADE + " transfers, " + rate + " a second, " + FAILED + " failed");
        System.out.println(euros + " euros in all");
        String counts = "created %d, destroyed %d, idle %d, lent %d%n";
        System.out.printf(counts, pool.getCreatedCount(), pool.getDestroyedCount(), pool.getNumIdle(), pool.getNumActive());
    }
}
