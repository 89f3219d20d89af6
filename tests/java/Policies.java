import io.github.zuphinka.Journal;
import io.github.zuphinka.ZuphinkaPool;
import java.nio.charset.StandardCharsets;
import java.nio.file.Files;
import java.nio.file.Path;
import java.time.Duration;
import java.util.ArrayList;
import java.util.List;
import java.util.Set;
import java.util.concurrent.Callable;
import java.util.function.LongSupplier;
import org.apache.commons.pool2.BasePooledObjectFactory;
import org.apache.commons.pool2.ObjectPool;
import org.apache.commons.pool2.PooledObject;
import org.apache.commons.pool2.impl.DefaultEvictionPolicy;
import org.apache.commons.pool2.impl.DefaultPooledObject;
import org.apache.commons.pool2.impl.EvictionConfig;
import org.apache.commons.pool2.impl.EvictionPolicy;
import org.apache.commons.pool2.impl.GenericObjectPool;
import org.apache.commons.pool2.impl.GenericObjectPoolConfig;

/**
 * Eviction policies of the user's own. The same calls are made of Commons Pool and of {@link ZuphinkaPool}, with policies that note what they are
 * asked, and each must find the same.
 *
 * <p>{@code Policies FOLDER} writes the journals to the folder.
 */
public final class Policies extends Expectations {
    private static final int MANY = 10;

    private Policies() {}

    /** Makes numbered texts, and notes what it is asked besides. */
    private static class Bare extends BasePooledObjectFactory<String> {
        final List<String> story = new ArrayList<>();
        Set<String> invalid = Set.of();
        private int next;

        @Override
        public String create() {
            return "text " + next++;
        }

        @Override
        public PooledObject<String> wrap(String text) {
            return new DefaultPooledObject<>(text);
        }

        @Override
        public boolean validateObject(PooledObject<String> pooled) {
            story.add("validate " + pooled.getObject());
            return !invalid.contains(pooled.getObject());
        }

        @Override
        public void destroyObject(PooledObject<String> pooled) {
            story.add("destroy " + pooled.getObject());
        }
    }

    /** Has work to activate and to passivate an object too. */
    private static final class Hooked extends Bare {
        Set<String> inactive = Set.of();

        @Override
        public void activateObject(PooledObject<String> pooled) throws Exception {
            story.add("activate " + pooled.getObject());
            if (inactive.contains(pooled.getObject())) {
                throw new Exception("inactive");
            }
        }

        @Override
        public void passivateObject(PooledObject<String> pooled) {
            story.add("passivate " + pooled.getObject());
        }
    }

    /** Notes what it is asked, and wants some objects gone. */
    private static final class Chooser implements EvictionPolicy<String> {
        private final Bare factory;
        Set<String> gone = Set.of();
        Set<String> failing = Set.of();
        Callable<?> meanwhile = () -> "nothing";

        Chooser(Bare factory) {
            this.factory = factory;
        }

        @Override
        public boolean evict(EvictionConfig config, PooledObject<String> pooled, int idle) {
            String settings = config.getIdleEvictDuration() + " " + config.getIdleSoftEvictDuration() + " " + config.getMinIdle();
            factory.story.add("asked of " + pooled.getObject() + ", " + pooled.getBorrowedCount() + " loans, " + idle + " idle, " + settings);
            factory.story.add("meanwhile " + result(meanwhile).toString().replaceAll(":.*", ""));
            if (failing.contains(pooled.getObject())) {
                throw new IllegalArgumentException("policy");
            }
            return gone.contains(pooled.getObject());
        }
    }

    /** A pool of one of the libraries, with the calls that its interface has not. */
    private static final class Side {
        final Bare factory;
        final Chooser policy;
        final ObjectPool<String> pool;
        private final Act eviction;
        private final LongSupplier evicted;

        Side(Bare factory, Chooser policy, ObjectPool<String> pool, Act eviction, LongSupplier evicted) {
            this.factory = factory;
            this.policy = policy;
            this.pool = pool;
            this.eviction = eviction;
            this.evicted = evicted;
        }

        void evict() {
            factory.story.add("evict: " + ending(eviction) + ", " + pool.getNumIdle() + " idle, " + evicted.getAsLong() + " evicted");
        }
    }

    /** Notes what it swallows. */
    private static final class Noting extends ZuphinkaPool<String> {
        private final List<String> story;

        Noting(Bare factory, GenericObjectPoolConfig<String> config) {
            super(factory, config, null, Journal.kept());
            story = factory.story;
        }

        @Override
        protected void swallowed(Exception failure) {
            story.add("swallowed " + root(failure));
        }
    }

    private static String root(Throwable failure) {
        Throwable root = failure;
        while (root.getCause() != null) {
            root = root.getCause();
        }
        return root.getMessage();
    }

    private static Side ours(Bare factory, GenericObjectPoolConfig<String> config) {
        Chooser policy = new Chooser(factory);
        config.setEvictionPolicy(policy);
        Noting pool = new Noting(factory, config);
        return new Side(factory, policy, pool, pool::evict, pool::getDestroyedByEvictorCount);
    }

    private static Side theirs(Bare factory, GenericObjectPoolConfig<String> config) {
        Chooser policy = new Chooser(factory);
        config.setEvictionPolicy(policy);
        GenericObjectPool<String> pool = new GenericObjectPool<>(factory, config);
        pool.setSwallowedExceptionListener(failure -> factory.story.add("swallowed " + root(failure)));
        return new Side(factory, policy, pool, pool::evict, pool::getDestroyedByEvictorCount);
    }

    private static GenericObjectPoolConfig<String> config() {
        GenericObjectPoolConfig<String> config = new GenericObjectPoolConfig<>();
        config.setJmxEnabled(false);
        config.setMaxTotal(MANY);
        config.setMaxIdle(MANY);
        config.setNumTestsPerEvictionRun(MANY);
        return config;
    }

    /** Makes calls of a pool, and returns what was asked and found, except in the close, whose order is another. */
    private static List<String> story(Side side) throws Exception {
        for (int number = 0; number < 6; number++) {
            side.pool.addObject();
        }
        side.pool.returnObject(side.pool.borrowObject());
        String lent = side.pool.borrowObject();
        side.evict();
        side.evict();
        side.policy.gone = Set.of("text 3", "text 4");
        side.policy.failing = Set.of("text 2");
        side.evict();
        side.evict();
        side.factory.invalid = Set.of("text 2");
        side.evict();
        side.evict();
        side.policy.meanwhile = () -> side.pool.getNumIdle() + " " + side.pool.getNumActive();
        side.evict();
        side.pool.returnObject(lent);
        List<String> story = new ArrayList<>(side.factory.story);
        side.pool.close();
        side.factory.story.clear();
        side.evict();
        story.addAll(side.factory.story);
        return story;
    }

    private static void compare(Path folder) throws Exception {
        int number = 0;
        for (int tests : new int[] {MANY, 2, -2}) {
            for (int bits = 0; bits < 8; bits++) {
                GenericObjectPoolConfig<String> config = config();
                config.setNumTestsPerEvictionRun(tests);
                config.setTestWhileIdle((bits & 1) != 0);
                config.setLifo((bits & 2) != 0);
                config.setMinIdle(tests + 3);
                config.setMinEvictableIdleTime(Duration.ofMillis(1));
                config.setSoftMinEvictableIdleTime(Duration.ofMillis(bits - 1));
                boolean isHooked = (bits & 4) != 0;
                Side ours = ours(isHooked ? new Hooked() : new Bare(), config.clone());
                List<String> wanted = story(theirs(isHooked ? new Hooked() : new Bare(), config));
                expect("a policy: " + config, String.join("\n", wanted), String.join("\n", story(ours)));
                write(folder, "policy-" + number++, (ZuphinkaPool<?>) ours.pool);
            }
        }
    }

    /** No borrow gets the object that the policy is asked of. */
    private static List<String> storyOfOne(Side side) throws Exception {
        side.pool.addObject();
        side.policy.meanwhile = side.pool::borrowObject;
        side.evict();
        side.policy.meanwhile = () -> "nothing";
        side.factory.story.add("after it " + side.pool.getNumIdle() + " " + side.pool.getNumActive());
        return side.factory.story;
    }

    private static void compareOfOne(Path folder) throws Exception {
        for (int total = 1; total <= 2; total++) {
            GenericObjectPoolConfig<String> config = config();
            config.setMaxTotal(total);
            config.setBlockWhenExhausted(false);
            Side ours = ours(new Bare(), config.clone());
            List<String> wanted = storyOfOne(theirs(new Bare(), config));
            expect("a borrow beside a policy: " + total, String.join("\n", wanted), String.join("\n", storyOfOne(ours)));
            write(folder, "borrow-" + total, (ZuphinkaPool<?>) ours.pool);
        }
    }

    /** The first error is thrown by the run, once it is over; no object is lost. */
    private static void errors(Path folder) throws Exception {
        GenericObjectPoolConfig<String> config = config();
        config.setEvictionPolicy((settings, pooled, idle) -> {
            throw new StackOverflowError("policy");
        });
        for (Bare factory : List.of(new Bare(), new Hooked())) {
            Noting pool = new Noting(factory, config);
            pool.addObject();
            pool.addObject();
            factory.story.clear();
            expect("a policy that ends in an error", "StackOverflowError: policy", ending(pool::evict));
            expect("its objects", "2 idle, 0 active, 2 created, 0 destroyed", counts(pool));
            expect("the second error", List.of("swallowed policy"), factory.story);
            pool.close();
            write(folder, "error-" + factory.getClass().getSimpleName(), pool);
        }
    }

    /** An object that the run cannot activate is destroyed, as one whose test fails. */
    private static void inactive() throws Exception {
        List<List<String>> stories = new ArrayList<>();
        for (boolean isOurs : new boolean[] {false, true}) {
            Hooked factory = new Hooked();
            GenericObjectPoolConfig<String> config = config();
            config.setTestWhileIdle(true);
            Side side = isOurs ? ours(factory, config) : theirs(factory, config);
            side.pool.addObject();
            side.pool.addObject();
            factory.inactive = Set.of("text 1");
            side.evict();
            factory.story.remove("swallowed inactive");
            stories.add(factory.story);
        }
        expect("an object that is inactive", stories.get(0), stories.get(1));
    }

    /** Wants each object gone. A policy is made of its name. */
    public static final class All implements EvictionPolicy<String> {
        @Override
        public boolean evict(EvictionConfig config, PooledObject<String> pooled, int idle) {
            return true;
        }
    }

    /** A policy that cannot be made. */
    public abstract static class Abstract implements EvictionPolicy<String> {}

    /** Returns the number of objects that a run evicts by a policy of a class with this name, or what the constructor throws. */
    private static Object evictedBy(String name, boolean isOurs) {
        GenericObjectPoolConfig<String> config = config();
        config.setEvictionPolicyClassName(name);
        Object found = result(() -> {
            ObjectPool<String> pool = isOurs ? new ZuphinkaPool<>(new Bare(), config) : new GenericObjectPool<>(new Bare(), config);
            pool.addObject();
            if (isOurs) {
                ((ZuphinkaPool<String>) pool).evict();
            } else {
                ((GenericObjectPool<String>) pool).evict();
            }
            return pool.getNumIdle();
        });
        return found.toString().replaceAll(":.*", "");
    }

    private static void names() {
        String text = String.class.getName();
        String ofDefault = DefaultEvictionPolicy.class.getName();
        for (String name : List.of(All.class.getName(), Abstract.class.getName(), ofDefault, text, "org.example.None", "")) {
            expect("a policy named " + name, evictedBy(name, false), evictedBy(name, true));
        }
        ClassLoader context = Thread.currentThread().getContextClassLoader();
        Thread.currentThread().setContextClassLoader(ClassLoader.getPlatformClassLoader());
        try {
            expect("another context", evictedBy(All.class.getName(), false), evictedBy(All.class.getName(), true));
        } finally {
            Thread.currentThread().setContextClassLoader(context);
        }
    }

    /** The default policy is the core's, however it is set. */
    private static void ofCore() {
        GenericObjectPoolConfig<String> config = config();
        config.setMinEvictableIdleTime(Duration.ofMillis(7));
        ZuphinkaPool<String> plain = new ZuphinkaPool<>(new Bare(), config);
        config.setEvictionPolicy(new DefaultEvictionPolicy<>());
        ZuphinkaPool<String> set = new ZuphinkaPool<>(new Bare(), config);
        expect("the default policy", plain.getSettingsText(), set.getSettingsText());
        expect("its idle time", true, set.getSettingsText().contains("minEvictableIdleMillis = 7\n"));
        plain.close();
        set.close();
    }

    private static void write(Path folder, String name, ZuphinkaPool<?> pool) throws Exception {
        Files.write(folder.resolve(name), pool.getJournal().text());
        Files.write(folder.resolve(name + ".toml"), pool.getSettingsText().getBytes(StandardCharsets.UTF_8));
    }

    public static void main(String[] words) throws Exception {
        Path folder = Path.of(words[0]);
        compare(folder);
        compareOfOne(folder);
        errors(folder);
        inactive();
        names();
        ofCore();
        printCounts();
    }
}
