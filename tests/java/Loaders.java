import io.github.zuphinka.Journal;
import io.github.zuphinka.ZuphinkaPool;
import java.io.IOException;
import java.lang.ref.WeakReference;
import java.net.URL;
import java.net.URLClassLoader;
import java.nio.file.Files;
import java.nio.file.Path;
import java.time.Duration;
import java.util.ArrayList;
import java.util.List;
import org.apache.commons.pool2.BasePooledObjectFactory;
import org.apache.commons.pool2.PooledObject;
import org.apache.commons.pool2.impl.DefaultPooledObject;
import org.apache.commons.pool2.impl.GenericObjectPoolConfig;

/**
 * Uses pools in each of two class loaders, as two applications of one server do, which end then. {@code Loaders PATH..}: the paths of the classes of
 * this program, of the library and of Commons Pool. The property {@code journals} names a folder for the journals. Where the environment names a file by
 * {@code HELD}, a native library of tests/refuse_java.c tells there how many of its allocations are left, as it is unloaded with a class loader.
 */
public final class Loaders extends Expectations {
    /** The pool of this class loader, which nobody forgets. */
    private static ZuphinkaPool<String> kept;

    private Loaders() {}

    private static ZuphinkaPool<String> pool(boolean hasBean) throws IOException {
        BasePooledObjectFactory<String> factory = new BasePooledObjectFactory<>() {
            @Override
            public String create() {
                return new String("text");
            }

            @Override
            public PooledObject<String> wrap(String text) {
                return new DefaultPooledObject<>(text);
            }
        };
        GenericObjectPoolConfig<String> config = new GenericObjectPoolConfig<>();
        config.setJmxEnabled(hasBean);
        ZuphinkaPool<String> pool = new ZuphinkaPool<>(factory, config, null, Journal.inFolder(Path.of(System.getProperty("journals"))));
        pool.setLeakDetectionThreshold(Duration.ofHours(1));
        return pool;
    }

    /** Lends an object of a new pool, and returns it. Another one stays lent, and one of a pool that is forgotten and not closed. */
    public static String lend() throws Exception {
        pool(false).borrowObject();
        try (ZuphinkaPool<String> pool = pool(true)) {
            kept = pool;
            pool.borrowObject();
            String lent = pool.borrowObject();
            pool.returnObject(lent);
            return lent;
        }
    }

    private static Object lendIn(ClassLoader loader) throws ReflectiveOperationException {
        try {
            return loader.loadClass("Loaders").getMethod("lend").invoke(null);
        } catch (ReflectiveOperationException e) {
            return e.getCause();
        }
    }

    /** Uses a pool of each of two class loaders, which nobody has afterwards. */
    private static List<WeakReference<ClassLoader>> used(URL[] all) throws Exception {
        try (URLClassLoader first = new URLClassLoader(all, null); URLClassLoader second = new URLClassLoader(all, null)) {
            expect("a pool of the first class loader", "text", lendIn(first));
            expect("a pool of the second one", "text", lendIn(second));
            return List.of(new WeakReference<>(first), new WeakReference<>(second));
        }
    }

    private static long left(List<WeakReference<ClassLoader>> loaders) {
        return loaders.stream().filter(loader -> loader.get() != null).count();
    }

    public static void main(String[] words) throws Exception {
        List<URL> urls = new ArrayList<>();
        for (String word : words) {
            urls.add(Path.of(word).toUri().toURL());
        }
        List<WeakReference<ClassLoader>> loaders = used(urls.toArray(new URL[0]));
        until(() -> {
            System.gc();
            return left(loaders) == 0;
        });
        expect("class loaders that are left", 0L, left(loaders));
        String held = System.getenv("HELD");
        if (held != null) {
            until(() -> Files.exists(Path.of(held)) && Files.readAllLines(Path.of(held)).size() == loaders.size());
            expect("allocations that are left", List.of("0", "0"), Files.readAllLines(Path.of(held)));
        }
        printCounts();
    }
}
