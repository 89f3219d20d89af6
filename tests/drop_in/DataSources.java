import java.lang.management.ManagementFactory;
import java.sql.Connection;
import java.sql.PreparedStatement;
import java.sql.ResultSet;
import java.sql.SQLException;
import java.sql.Statement;
import java.util.ArrayList;
import java.util.List;
import java.util.Random;
import java.util.TreeSet;
import java.util.concurrent.Callable;
import java.util.stream.Collectors;
import java.util.stream.Stream;
import javax.management.MBeanAttributeInfo;
import javax.management.MBeanServer;
import javax.management.ObjectName;
import org.apache.commons.dbcp2.BasicDataSource;

/** Makes calls of DBCP2's BasicDataSource over an H2 database in memory, and prints what comes of each. The lines do not depend on the pool below. */
public final class DataSources {
    private static final int ACCOUNTS = 8;
    private static final int THREADS = 6;
    private static final int TRANSFERS = 150;
    private static final int EUROS = 100;

    private DataSources() {}

    /** Prints what a call returns, or the name and the message of what it throws. */
    private static void tell(String name, Callable<?> call) {
        Object result;
        try {
            result = call.call();
        } catch (Exception e) {
            result = e.getClass().getSimpleName() + ": " + String.valueOf(e.getMessage()).replaceFirst(": pool .*, maxTotal -?[0-9]+", "");
        }
        System.out.println(name + ": " + result);
    }

    private static BasicDataSource source(String name) {
        BasicDataSource source = new BasicDataSource();
        source.setDriverClassName("org.h2.Driver");
        source.setUrl("jdbc:h2:mem:" + name + ";DB_CLOSE_DELAY=-1;LOCK_TIMEOUT=60000");
        source.setMaxTotal(3);
        source.setMaxIdle(2);
        source.setMaxWaitMillis(200);
        source.setInitialSize(2);
        source.setValidationQuery("SELECT 1");
        source.setPoolPreparedStatements(true);
        return source;
    }

    private static String counts(BasicDataSource source) {
        return source.getNumActive() + " active, " + source.getNumIdle() + " idle";
    }

    private static String made(BasicDataSource source, String sql) throws SQLException {
        try (Connection connection = source.getConnection(); Statement statement = connection.createStatement()) {
            return statement.execute(sql) + " " + statement.getUpdateCount();
        }
    }

    private static void shut(BasicDataSource source) throws SQLException {
        source.close();
    }

    private static void life() throws Exception {
        try (BasicDataSource source = source("life")) {
            tell("before the first", () -> counts(source));
            tell("a table", () -> made(source, "CREATE TABLE words (word VARCHAR(9))"));
            tell("after it", () -> counts(source));
            List<Connection> connections = new ArrayList<>();
            while (connections.size() < 3) {
                connections.add(source.getConnection());
            }
            tell("all", () -> counts(source));
            tell("one more", source::getConnection);
            connections.get(0).unwrap(Connection.class).close();
            tell("closed twice", () -> {
                connections.get(0).close();
                return counts(source);
            });
            source.invalidateConnection(connections.get(1));
            tell("invalidated", () -> counts(source));
            connections.get(2).close();
            tell("at the end", () -> counts(source));
            tell("the table", () -> made(source, "INSERT INTO words VALUES ('a'), ('b')"));
            source.setMaxTotal(3);
            source.setMaxWaitMillis(100);
            tell("settings", () -> source.getMaxTotal() + " " + source.getMaxWaitMillis());
            tell("after settings", () -> made(source, "DELETE FROM words"));
            shut(source);
            tell("closed", source::getConnection);
            source.restart();
            tell("restarted", () -> made(source, "DELETE FROM words"));
        }
    }

    /** A connection that broke while it was idle is noticed by its test. */
    private static void brokenConnections() throws Exception {
        try (BasicDataSource source = source("broken")) {
            source.setTestOnBorrow(true);
            source.setInitialSize(0);
            source.setAccessToUnderlyingConnectionAllowed(true);
            try (Connection connection = source.getConnection()) {
                ((org.apache.commons.dbcp2.DelegatingConnection<?>) connection).getInnermostDelegate().close();
            }
            tell("a broken one", () -> counts(source));
            try (Connection connection = source.getConnection()) {
                tell("in its place", () -> connection.isValid(1) + " " + counts(source));
            }
            tell("returned", () -> counts(source));
        }
    }

    private static void evictions() throws Exception {
        try (BasicDataSource source = source("evictions")) {
            source.setMinEvictableIdleTimeMillis(40);
            source.setTimeBetweenEvictionRunsMillis(20);
            source.setNumTestsPerEvictionRun(5);
            try (Connection connection = source.getConnection()) {
                tell("lent and initial", () -> connection.isValid(1) + " " + source.getNumActive());
            }
            for (int tries = 0; source.getNumIdle() > 0 && tries < 500; tries++) {
                Thread.sleep(10);
            }
            tell("evicted", () -> counts(source));
            tell("again", () -> made(source, "CREATE TABLE others (word VARCHAR(9))"));
        }
    }

    private static void abandonedConnections() throws Exception {
        try (BasicDataSource source = source("abandoned")) {
            source.setMaxTotal(2);
            source.setInitialSize(0);
            source.setRemoveAbandonedOnBorrow(true);
            source.setRemoveAbandonedTimeout(1);
            Connection forgotten = source.getConnection();
            Connection other = source.getConnection();
            Thread.sleep(1_500);
            Connection third = source.getConnection();
            tell("in place of forgotten ones", () -> third.isValid(1) + " " + forgotten.isClosed() + " " + other.isClosed());
            third.close();
            forgotten.close();
            tell("at the end", () -> counts(source));
        }
    }

    private static void transfer(BasicDataSource source, Random random) throws SQLException {
        try (Connection connection = source.getConnection();
                PreparedStatement statement = connection.prepareStatement("UPDATE accounts SET euros = euros + ? WHERE id = ?")) {
            connection.setAutoCommit(false);
            int from = random.nextInt(ACCOUNTS);
            int to = random.nextInt(ACCOUNTS);
            statement.setInt(1, -1);
            statement.setInt(2, Math.min(from, to));
            statement.executeUpdate();
            statement.setInt(1, 1);
            statement.setInt(2, Math.max(from, to));
            statement.executeUpdate();
            connection.commit();
        }
    }

    private static void transferAll(BasicDataSource source, int seed) {
        Random random = new Random(seed);
        try {
            for (int number = 0; number < TRANSFERS; number++) {
                transfer(source, random);
            }
        } catch (SQLException e) {
            System.out.println("a transfer: " + e);
        }
    }

    private static int sum(BasicDataSource source) throws SQLException {
        try (Connection connection = source.getConnection();
                Statement statement = connection.createStatement();
                ResultSet result = statement.executeQuery("SELECT SUM(euros) FROM accounts")) {
            result.next();
            return result.getInt(1);
        }
    }

    private static void transfers() throws Exception {
        try (BasicDataSource source = source("bank")) {
            source.setMaxWaitMillis(30_000);
            source.setMaxIdle(3);
            made(source, "CREATE TABLE accounts (id INT PRIMARY KEY, euros INT)");
            for (int id = 0; id < ACCOUNTS; id++) {
                made(source, "INSERT INTO accounts VALUES (" + id + ", " + EUROS + ")");
            }
            List<Thread> threads = new ArrayList<>();
            for (int number = 0; number < THREADS; number++) {
                int seed = number;
                Thread thread = new Thread(() -> transferAll(source, seed));
                thread.start();
                threads.add(thread);
            }
            for (Thread thread : threads) {
                thread.join();
            }
            tell("euros in all", () -> sum(source));
            tell("after the threads", () -> source.getNumActive() + " active");
        }
    }

    /** The attributes of the MBean of a pool, and those of its values that do not depend on times. */
    private static void beans() throws Exception {
        MBeanServer server = ManagementFactory.getPlatformMBeanServer();
        ObjectName name = new ObjectName("org.example:type=BasicDataSource,name=beans");
        try (BasicDataSource source = source("beans")) {
            source.setJmxName(name.toString());
            server.registerMBean(source, name);
            made(source, "CREATE TABLE beans (word VARCHAR(9))");
            ObjectName pool = new ObjectName(name + ",connectionpool=connections");
            Stream<String> attributes = Stream.of(server.getMBeanInfo(pool).getAttributes()).map(MBeanAttributeInfo::getName);
            System.out.println(new TreeSet<>(attributes.collect(Collectors.toList())));
            for (String each : List.of("NumIdle", "NumActive", "MaxTotal", "MaxIdle", "MinIdle", "CreatedCount", "BorrowedCount", "ReturnedCount",
                    "DestroyedCount", "DestroyedByEvictorCount", "FactoryType", "Lifo", "Fairness", "Closed", "NumWaiters", "MaxWaitMillis")) {
                tell(each, () -> server.getAttribute(pool, each));
            }
        }
    }

    public static void main(String[] words) throws Exception {
        life();
        brokenConnections();
        evictions();
        abandonedConnections();
        transfers();
        beans();
    }
}
