import io.github.zuphinka.Journal;
import io.github.zuphinka.ZuphinkaPool;
import java.io.IOException;
import java.nio.file.Path;
import java.time.Duration;
import java.util.Collections;
import java.util.List;
import java.util.concurrent.Callable;
import java.util.concurrent.ExecutorService;
import java.util.concurrent.Executors;
import java.util.concurrent.Future;
import org.apache.commons.pool2.BasePooledObjectFactory;
import org.apache.commons.pool2.ObjectPool;
import org.apache.commons.pool2.PooledObject;
import org.apache.commons.pool2.impl.DefaultPooledObject;
import org.apache.commons.pool2.impl.GenericObjectPoolConfig;

/**
 * Four servers answer requests over a pool of three connections, some of which break.
 *
 * <p>{@code Servers FOLDER} stores the journal of the pool in the folder, which must have none yet. It prints how many requests were answered.
 */
public final class Servers {
    private static final int SERVERS = 4;
    private static final int REQUESTS = 50;

    private Servers() {}

    /** A connection to something that answers. */
    private static final class Connection {
        private boolean isBroken;

        /** Each tenth request breaks the connection over which it goes. */
        int ask(int request) throws IOException {
            isBroken = request % 10 == 9;
            if (isBroken) {
                throw new IOException("broken");
            }
            return request * request;
        }
    }

    /** Makes connections, which takes a while. */
    private static final class Connector extends BasePooledObjectFactory<Connection> {
        @Override
        public Connection create() throws InterruptedException {
            Thread.sleep(2);
            return new Connection();
        }

        @Override
        public PooledObject<Connection> wrap(Connection connection) {
            return new DefaultPooledObject<>(connection);
        }

        @Override
        public boolean validateObject(PooledObject<Connection> pooled) {
            return !pooled.getObject().isBroken;
        }
    }

    /** Returns how many requests were answered. The pool tests a connection that is returned, and destroys a broken one. */
    private static int serve(ObjectPool<Connection> pool) throws Exception {
        int answered = 0;
        for (int request = 0; request < REQUESTS; request++) {
            Connection connection = pool.borrowObject();
            try {
                connection.ask(request);
                answered++;
            } catch (IOException e) {
                // This request has no answer.
            } finally {
                pool.returnObject(connection);
            }
        }
        return answered;
    }

    public static void main(String[] words) throws Exception {
        GenericObjectPoolConfig<Connection> config = new GenericObjectPoolConfig<>();
        config.setMaxTotal(3);
        config.setMinIdle(1);
        config.setTestOnReturn(true);
        config.setMaxWait(Duration.ofSeconds(60));
        config.setTimeBetweenEvictionRuns(Duration.ofSeconds(30));
        try (ZuphinkaPool<Connection> pool = new ZuphinkaPool<>(new Connector(), config, null, Journal.inFolder(Path.of(words[0])))) {
            List<Callable<Integer>> servers = Collections.nCopies(SERVERS, () -> serve(pool));
            ExecutorService threads = Executors.newFixedThreadPool(SERVERS);
            List<Future<Integer>> ended = threads.invokeAll(servers);
            threads.shutdown();
            int answered = 0;
            for (Future<Integer> server : ended) {
                answered += server.get();
            }
            System.out.println(answered + " requests were answered over " + pool.getCreatedCount() + " connections");
        }
    }
}
