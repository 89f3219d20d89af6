import java.io.BufferedReader;
import java.io.InputStreamReader;
import java.sql.Connection;
import java.sql.PreparedStatement;
import java.sql.SQLException;
import java.util.ArrayList;
import java.util.List;
import java.util.concurrent.CyclicBarrier;
import java.util.concurrent.ExecutorService;
import java.util.concurrent.Executors;
import java.util.concurrent.Future;
import java.util.concurrent.TimeUnit;
import java.util.regex.Matcher;
import java.util.regex.Pattern;

/**
 * Threads that transfer money between accounts in PostgreSQL over a pool of four connections, for {@code bench/database}.
 *
 * <p>{@code Transfers OPENER URL}, where OPENER is the class that opens the pool: {@code Leases}, {@code Under}, {@code Dbcp} or {@code Hikari}. The
 * standard input has a line for each turn: its workers, and its milliseconds. Each turn has a pool of its own, which has all its connections when the turn
 * begins. Prints a line for each turn, when its pool is closed: its transfers, its time, and the longest wait for a connection. Ends with an error
 * as soon as a transfer fails.
 */
public final class Transfers {
    private static final String USAGE = "usage: Transfers OPENER URL, with lines `WORKERS MILLISECONDS`";
    private static final Pattern TURN = Pattern.compile("([1-9]\\d*) (\\d+)");
    private static final int ACCOUNTS = 100;

    /** What a worker did. */
    private static final class Work {
        int made;
        long longestNanos;
    }

    private final Lender lender;
    private final int workers;
    private final long nanos;
    private volatile long began;

    private Transfers(Lender lender, int workers, long nanos) {
        this.lender = lender;
        this.workers = workers;
        this.nanos = nanos;
    }

    private static void execute(Connection connection, String command, int... numbers) throws SQLException {
        try (PreparedStatement statement = connection.prepareStatement(command)) {
            for (int place = 0; place < numbers.length; place++) {
                statement.setInt(place + 1, numbers[place]);
            }
            statement.executeUpdate();
        }
    }

    /**
     * Transfers a euro in one transaction. The number chooses the accounts. The second has the greater id, so that no two transfers wait for each
     * other.
     */
    private static void transfer(Connection connection, int worker, int number) throws SQLException {
        int source = number % (ACCOUNTS - 1);
        int target = source + 1 + number % (ACCOUNTS - 1 - source);
        execute(connection, "insert into transfer values (?, ?, ?, 1)", worker, source, target);
        execute(connection, "update account set euros = euros + ? where id = ?", -1, source);
        execute(connection, "update account set euros = euros + ? where id = ?", 1, target);
        connection.commit();
    }

    /** Transfers until the turn is over. */
    private Work work(int worker, CyclicBarrier start) throws Exception {
        Work work = new Work();
        start.await();
        long end = System.nanoTime() + nanos;
        for (long asked = System.nanoTime(); asked - end < 0; asked = System.nanoTime()) {
            try (Lender.Loan loan = lender.borrow()) {
                work.longestNanos = Math.max(work.longestNanos, System.nanoTime() - asked);
                transfer(loan.connection, worker, worker + workers * work.made);
            }
            work.made++;
        }
        return work;
    }

    /** Has the pool open all its connections. */
    private void openAll() throws Exception {
        List<Lender.Loan> held = new ArrayList<>();
        for (int place = 0; place < Opener.CONNECTIONS; place++) {
            held.add(lender.borrow());
        }
        for (Lender.Loan loan : held) {
            loan.close();
        }
    }

    /** Runs the workers of the turn. Returns its line. */
    private String play() throws Exception {
        openAll();
        CyclicBarrier start = new CyclicBarrier(workers, () -> began = System.nanoTime());
        ExecutorService threads = Executors.newFixedThreadPool(workers);
        List<Future<Work>> ended = new ArrayList<>();
        for (int number = 0; number < workers; number++) {
            int worker = number;
            ended.add(threads.submit(() -> work(worker, start)));
        }
        Work all = new Work();
        for (Future<Work> work : ended) {
            all.made += work.get().made;
            all.longestNanos = Math.max(all.longestNanos, work.get().longestNanos);
        }
        long tookNanos = System.nanoTime() - began;
        threads.shutdown();
        return all.made + " transfers in " + tookNanos / 1_000 + " us, longest wait " + all.longestNanos / 1_000 + " us";
    }

    /** Plays a turn over a pool of its own. Returns its line. */
    private static String played(Opener opener, String url, String line) throws Exception {
        Matcher turn = TURN.matcher(line);
        if (!turn.matches()) {
            throw new IllegalArgumentException(USAGE);
        }
        Lender lender = opener.open(url);
        try {
            return new Transfers(lender, Integer.parseInt(turn.group(1)), TimeUnit.MILLISECONDS.toNanos(Long.parseLong(turn.group(2)))).play();
        } finally {
            lender.close();
        }
    }

    private static void playAll(String opener, String url) throws Exception {
        Opener opens = Class.forName(opener).asSubclass(Opener.class).getDeclaredConstructor().newInstance();
        BufferedReader turns = new BufferedReader(new InputStreamReader(System.in));
        for (String turn = turns.readLine(); turn != null; turn = turns.readLine()) {
            System.out.println(played(opens, url, turn));
        }
    }

    public static void main(String[] words) {
        if (words.length != 2) {
            System.err.println(USAGE);
            System.exit(2);
        }
        try {
            playAll(words[0], words[1]);
        } catch (Exception error) {
            // Other workers may still run.
            error.printStackTrace();
            System.exit(1);
        }
    }
}
