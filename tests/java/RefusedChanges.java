import io.github.zuphinka.Journal;
import io.github.zuphinka.Refusal;
import io.github.zuphinka.Segment;
import io.github.zuphinka.ZuphinkaPool;
import java.time.Duration;
import java.util.ArrayList;
import java.util.List;
import java.util.function.Consumer;
import java.util.stream.Collectors;
import org.apache.commons.pool2.impl.AbandonedConfig;
import org.apache.commons.pool2.impl.GenericObjectPoolConfig;

/**
 * Settings that change while one allocation of the native library fails, each in turn. A change that throws for that changes nothing, and succeeds when
 * it is made again. No entry is missing, and each segment has the settings that its entries were made with.
 *
 * <p>The native library is linked with tests/refuse_java.c.
 */
public final class RefusedChanges extends Expectations {
    private static final List<Consumer<ZuphinkaPool<Object>>> CHANGES = List.of(
            pool -> pool.setMaxTotal(2),
            pool -> pool.setAbandonedConfig(new AbandonedConfig()),
            pool -> pool.setTestOnBorrow(true),
            pool -> pool.setMinEvictableIdle(Duration.ofDays(1)),
            pool -> pool.setMaxTotal(20));

    private RefusedChanges() {}

    private static String stateOf(ZuphinkaPool<?> pool) {
        return pool.getSettingsText() + counts(pool) + " " + pool.getCounts().entries() + " " + pool.getCounts().steps();
    }

    /** Makes a change, again if there was no memory. Returns how often it threw. */
    private static int made(ZuphinkaPool<Object> pool, Consumer<ZuphinkaPool<Object>> change) {
        String before = stateOf(pool);
        try {
            change.accept(pool);
            return 0;
        } catch (OutOfMemoryError e) {
            expect("the message: " + e.getMessage(), true, e.getMessage().startsWith("zuphinka: no memory for "));
            expect("what a change leaves that has no memory", before, stateOf(pool));
            change.accept(pool);
            return 1;
        }
    }

    /** Returns the settings, the position and the entries of segments that follow each other. */
    private static List<String> shown(List<Segment> segments) {
        return segments.stream().map(segment -> segment.position() + " " + segment.entries() + "\n" + segment.settings()).collect(Collectors.toList());
    }

    /** One life, in whose changes the allocation with this number fails. Returns how often a change threw. */
    private static int life(String kind, int number, List<Segment> segments) throws Exception {
        GenericObjectPoolConfig<Object> config = new GenericObjectPoolConfig<>();
        config.setJmxEnabled(false);
        Journal journal = kind.equals("kept") ? Journal.kept() : kind.equals("stored") ? whenDue(segments::add) : Journal.dropped();
        ZuphinkaPool<Object> pool = new ZuphinkaPool<>(new Plain(), config, null, journal);
        List<Object> lent = new ArrayList<>();
        int thrown = 0;
        for (Consumer<ZuphinkaPool<Object>> change : CHANGES) {
            if (lent.size() < 6) {
                lent.add(pool.borrowObject(0));
                lent.add(pool.getNumActive() < pool.getMaxTotal() ? pool.borrowObject(0) : lent.remove(0));
            }
            Refusal.refuse(number);
            thrown += made(pool, change);
            Refusal.refuse(0);
            lent.forEach(object -> pool.use(object));
            pool.returnObject(lent.remove(0));
        }
        lent.forEach(pool::returnObject);
        pool.close();
        if (kind.equals("kept")) {
            do {
                segments.add(pool.cut());
            } while (segments.get(segments.size() - 1).position() + segments.get(segments.size() - 1).entries() < pool.getCounts().steps());
        }
        expect(kind + ": lost", "0 idle, 0 active", counts(pool).substring(0, 16));
        return thrown;
    }

    private static void lives(String kind) throws Exception {
        List<Segment> wanted = new ArrayList<>();
        life(kind, 0, wanted);
        int thrown = 1;
        int all = 0;
        for (int number = 1; thrown > 0; number++) {
            List<Segment> segments = new ArrayList<>();
            thrown = life(kind, number, segments);
            all += thrown;
            expect(kind + ": its segments", shown(wanted), shown(segments));
        }
        expect(kind + ": changes that had no memory: " + all, true, all > CHANGES.size());
    }

    public static void main(String[] words) throws Exception {
        for (String kind : List.of("kept", "stored", "dropped")) {
            lives(kind);
        }
        printCounts();
    }
}
