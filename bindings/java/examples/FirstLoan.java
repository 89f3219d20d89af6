import io.github.zuphinka.Journal;
import io.github.zuphinka.Lease;
import io.github.zuphinka.ZuphinkaPool;
import java.nio.file.Path;
import org.apache.commons.pool2.BasePooledObjectFactory;
import org.apache.commons.pool2.PooledObject;
import org.apache.commons.pool2.impl.DefaultPooledObject;
import org.apache.commons.pool2.impl.GenericObjectPoolConfig;

/**
 * Borrows a session from a pool, uses it and returns it.
 *
 * <p>{@code FirstLoan FOLDER} stores the journal of the pool in the folder, which must have none yet.
 */
public final class FirstLoan extends BasePooledObjectFactory<StringBuilder> {
    @Override
    public StringBuilder create() {
        return new StringBuilder("a session"); // connect to your server here
    }

    @Override
    public PooledObject<StringBuilder> wrap(StringBuilder session) {
        return new DefaultPooledObject<>(session);
    }

    public static void main(String[] words) throws Exception {
        GenericObjectPoolConfig<StringBuilder> config = new GenericObjectPoolConfig<>();
        config.setMaxTotal(2);
        try (ZuphinkaPool<StringBuilder> pool = new ZuphinkaPool<>(new FirstLoan(), config, null, Journal.inFolder(Path.of(words[0])))) {
            try (Lease<StringBuilder> lease = pool.lease()) { // in any thread
                System.out.println(lease.get());
            }
        }
    }
}
