package io.github.zuphinka;

import java.lang.ref.PhantomReference;
import java.lang.ref.Reference;
import java.lang.ref.ReferenceQueue;
import java.util.Set;
import java.util.concurrent.ConcurrentHashMap;

/**
 * The core of a pool, which is freed once nobody has the pool, when another pool is opened. No thread waits for that. It would have a task of this
 * library's class loader, and so keep all classes of that, and a pool that one of these has. With that class loader the native library is unloaded, which
 * frees the cores that are left.
 */
final class Cores extends PhantomReference<LockedPool<?>> {
    private static final ReferenceQueue<LockedPool<?>> UNUSED = new ReferenceQueue<>();
    private static final Set<Cores> ALL = ConcurrentHashMap.newKeySet();

    private final long core;

    private Cores(LockedPool<?> lockedPool, long core) {
        super(lockedPool, UNUSED);
        this.core = core;
    }

    /** Has the core of a pool freed once nobody has the pool, and frees those of others that nobody has. */
    static void register(LockedPool<?> lockedPool, long core) {
        freeUnused();
        ALL.add(new Cores(lockedPool, core));
    }

    private static void freeUnused() {
        for (Reference<?> unused = UNUSED.poll(); unused != null; unused = UNUSED.poll()) {
            ALL.remove(unused);
            Core.drop(((Cores) unused).core);
        }
    }
}
