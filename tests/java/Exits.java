import io.github.zuphinka.Journal;
import io.github.zuphinka.ZuphinkaPool;
import java.nio.file.Path;
import java.time.Duration;
import java.util.concurrent.TimeUnit;
import org.apache.commons.pool2.impl.GenericObjectPoolConfig;

/**
 * A process that never returns an object, and ends. {@code Exits FOLDER END [maintained]} stores its journal below the folder, prints where, and the
 * number of its entries, and ends: by a {@code close} of the pool, by {@code exit}, by the end of {@code main}, or when it is {@code killed}.
 */
public final class Exits {
    private Exits() {}

    public static void main(String[] words) throws Exception {
        GenericObjectPoolConfig<Object> config = new GenericObjectPoolConfig<>();
        config.setTimeBetweenEvictionRuns(words.length > 2 ? Duration.ofHours(1) : Duration.ZERO);
        ZuphinkaPool<Object> pool = new ZuphinkaPool<>(new Plain(), config, null, Journal.inFolder(Path.of(words[0])));
        pool.borrowObject();
        pool.returnObject(pool.borrowObject());
        if (words[1].equals("close")) {
            pool.close();
        }
        System.out.println(pool.getJournalFolder() + "\n" + pool.getCounts().steps());
        if (words[1].equals("exit")) {
            System.exit(0);
        } else if (words[1].equals("killed")) {
            TimeUnit.DAYS.sleep(1);
        }
    }
}
