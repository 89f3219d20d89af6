import io.github.zuphinka.TestClock;
import java.time.Duration;
import java.time.Instant;
import org.apache.commons.pool2.impl.DefaultPooledObject;

/** A wrapper that tells Commons Pool, and the class in its place, for how long an object was idle or lent, by the clock of the test. */
final class TimedItem extends DefaultPooledObject<Item> {
    /** So much longer each loan seems: none is too short for a limit of zero. It is little for limits of hours. */
    private static final Duration MORE = Duration.ofMinutes(1);

    private long returned = TestClock.nanoTime();
    private long used = returned;
    private long lent = returned;

    TimedItem(Item item) {
        super(item);
    }

    @Override
    public synchronized boolean allocate() {
        used = TestClock.nanoTime();
        lent = used;
        return super.allocate();
    }

    @Override
    public synchronized boolean deallocate() {
        returned = TestClock.nanoTime();
        return super.deallocate();
    }

    @Override
    public void use() {
        used = TestClock.nanoTime();
        super.use();
    }

    @Override
    public Duration getIdleDuration() {
        return Duration.ofNanos(TestClock.nanoTime() - returned);
    }

    @Override
    public Duration getActiveDuration() {
        return Duration.ofNanos((returned > lent ? returned : TestClock.nanoTime()) - lent);
    }

    @Override
    public Instant getLastUsedInstant() {
        return Instant.now().minusNanos(TestClock.nanoTime() - used).minus(MORE);
    }
}
