import java.util.ArrayList;
import java.util.List;
import java.util.concurrent.CyclicBarrier;

/**
 * Threads that borrow from a pool for Java and return, for {@code bench/peers}.
 *
 * <p>{@code Bench OBJECTS THREADS ROUNDS bare|hooked CONTESTANT..} makes a pool of each kind: {@code Commons}, {@code Zuphinka}, {@code InPlace},
 * {@code Hikari}. In each round a thread borrows one object and returns it. The pools take turns of at most 20,000 rounds for each thread, until each
 * had all rounds. Before that they warm up in the same way, for 1.5 seconds each or ten times as many rounds, whichever is less: so the measured turns
 * run compiled code.
 *
 * <p>Prints for each kind the pairs of the measured turns as its pool or its objects counted them, the objects that were created or given in all, and
 * the nanoseconds of the measured turns.
 */
public final class Bench {
    private static final long WARM_UP_NANOS = 1_500_000_000L;
    private static final long WARM_UP_TIMES = 10;
    private static final long MOST_ROUNDS_OF_TURN = 20_000;

    /** A contestant with its counts. */
    private static final class Side {
        final String kind;
        final Contestant contestant;
        long nanos;

        Side(String kind, Contestant contestant) {
            this.kind = kind;
            this.contestant = contestant;
        }
    }

    private final int threads;
    private final List<Side> sides = new ArrayList<>();
    private long began;

    private Bench(int threads) {
        this.threads = threads;
    }

    private void enter(String kind, int objects, boolean isHooked) throws ReflectiveOperationException {
        Class<? extends Contestant> found = Class.forName(kind).asSubclass(Contestant.class);
        sides.add(new Side(kind, found.getDeclaredConstructor(int.class, boolean.class).newInstance(objects, isHooked)));
    }

    /** Makes the rounds of one thread. An error ends the program: its pairs would be missing. */
    private static void work(CyclicBarrier start, Contestant contestant, long rounds) {
        try {
            start.await();
            contestant.work(rounds);
        } catch (Exception error) {
            error.printStackTrace();
            System.exit(1);
        }
    }

    /** Runs all threads. Returns the nanoseconds from the time at which they are all there until the last one ended. */
    private long run(Contestant contestant, long rounds) throws InterruptedException {
        CyclicBarrier start = new CyclicBarrier(threads, () -> began = System.nanoTime());
        Thread[] workers = new Thread[threads];
        for (int worker = 0; worker < threads; worker++) {
            workers[worker] = new Thread(() -> work(start, contestant, rounds));
            workers[worker].start();
        }
        for (Thread worker : workers) {
            worker.join();
        }
        return System.nanoTime() - began;
    }

    /** Lets the pools take turns until each has so many rounds, or its time is over. */
    private void takeTurns(long rounds, long longestNanos) throws InterruptedException {
        sides.forEach(side -> side.nanos = 0);
        for (long left = rounds; left > 0 && sides.get(0).nanos < longestNanos; left -= MOST_ROUNDS_OF_TURN) {
            for (Side side : sides) {
                side.nanos += run(side.contestant, Math.min(left, MOST_ROUNDS_OF_TURN));
            }
        }
    }

    private void measure(long rounds) throws InterruptedException {
        takeTurns(WARM_UP_TIMES * rounds, WARM_UP_NANOS);
        long[] before = sides.stream().mapToLong(side -> side.contestant.pairs()).toArray();
        takeTurns(rounds, Long.MAX_VALUE);
        for (int place = 0; place < sides.size(); place++) {
            Side side = sides.get(place);
            long pairs = side.contestant.pairs() - before[place];
            System.out.printf("%1$s-pairs %2$d%n%1$s-created %3$d%n%1$s-nanoseconds %4$d%n", side.kind, pairs, side.contestant.created(), side.nanos);
            side.contestant.close();
        }
    }

    public static void main(String[] words) throws Exception {
        if (words.length < 5) {
            System.err.println("Bench OBJECTS THREADS ROUNDS bare|hooked CONTESTANT..");
            System.exit(2);
        }
        Bench bench = new Bench(Integer.parseInt(words[1]));
        for (String kind : List.of(words).subList(4, words.length)) {
            bench.enter(kind, Integer.parseInt(words[0]), words[3].equals("hooked"));
        }
        bench.measure(Long.parseLong(words[2]));
    }
}
