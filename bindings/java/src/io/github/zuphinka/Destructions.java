package io.github.zuphinka;

import java.util.function.Consumer;
import org.apache.commons.pool2.DestroyMode;
import org.apache.commons.pool2.PooledObjectFactory;
import org.apache.commons.pool2.impl.AbandonedConfig;

/** The destructions of a pool's objects, each of which is destroyed once. They run without the lock of the pool. */
final class Destructions<T> {
    private final PooledObjectFactory<T> factory;
    private final Objects<T> objects;
    private final Consumer<Throwable> swallowing;

    Destructions(PooledObjectFactory<T> factory, Objects<T> objects, Consumer<Throwable> swallowing) {
        this.factory = factory;
        this.objects = objects;
        this.swallowing = swallowing;
    }

    /** Destroys the object of a call, unless that was done. */
    void destroy(Call<T> call) throws Exception {
        if (!call.member.isGone) {
            call.member.isGone = true;
            destroy(call.member, call.mode);
        }
    }

    private void destroy(Member<T> member, DestroyMode mode) throws Exception {
        try {
            objects.remove(member);
            member.pooled.invalidate();
        } finally {
            factory.destroyObject(member.pooled, mode);
        }
    }

    /** Destroys an object that has no place, whatever the factory throws. */
    void destroyQuietly(Member<T> member) {
        try {
            destroy(member, DestroyMode.NORMAL);
        } catch (Throwable e) {
            swallowing.accept(e);
        }
    }

    /** Destroys the abandoned objects that a call took from their holders. Without a configuration for such objects no stack is printed. */
    void destroyReclaimed(Call<T> call, AbandonedConfig abandoned) {
        for (Member<T> member = call.reclaimed; member != null; member = member.next) {
            try {
                destroyReclaimed(member, abandoned);
            } catch (Throwable e) {
                if (!call.keepsError(e)) {
                    swallowing.accept(e);
                }
            }
        }
        call.reclaimed = null;
    }

    private void destroyReclaimed(Member<T> member, AbandonedConfig abandoned) throws Exception {
        try {
            if (abandoned != null && abandoned.getLogAbandoned()) {
                member.pooled.printStackTrace(abandoned.getLogWriter());
            }
        } finally {
            destroy(member, DestroyMode.ABANDONED);
        }
    }
}
