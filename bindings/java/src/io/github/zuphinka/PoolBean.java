package io.github.zuphinka;

import java.io.PrintWriter;
import java.io.StringWriter;
import java.lang.management.ManagementFactory;
import java.lang.ref.WeakReference;
import java.util.Set;
import java.util.function.Function;
import javax.management.InstanceAlreadyExistsException;
import javax.management.JMException;
import javax.management.MalformedObjectNameException;
import javax.management.NotCompliantMBeanException;
import javax.management.ObjectName;
import javax.management.StandardMBean;
import org.apache.commons.pool2.impl.BaseObjectPoolConfig;
import org.apache.commons.pool2.impl.DefaultPooledObjectInfo;
import org.apache.commons.pool2.impl.GenericObjectPoolConfig;

/** The MBean of a pool. It does not keep the pool from being collected. */
final class PoolBean extends StandardMBean implements ZuphinkaPoolMXBean {
    private static final String BASE = "org.apache.commons.pool2:type=GenericObjectPool,name=";
    private final WeakReference<ZuphinkaPool<?>> pool;
    private final String factoryType;
    /** As text, since a stored exception keeps the classes of its stack from being unloaded. */
    private final String creationStackTrace;

    private PoolBean(ZuphinkaPool<?> pool, String factoryType) throws NotCompliantMBeanException {
        super(ZuphinkaPoolMXBean.class, true);
        this.pool = new WeakReference<>(pool);
        this.factoryType = factoryType;
        StringWriter text = new StringWriter();
        new Exception("The pool was made").printStackTrace(new PrintWriter(text));
        creationStackTrace = text.toString();
    }

    /**
     * Registers an MBean by the name that the configuration gives, or by the first free one with a number after it; by the default name if that
     * is none. Returns the name; null if the MBean cannot be registered.
     */
    static ObjectName register(ZuphinkaPool<?> pool, GenericObjectPoolConfig<?> config, String factoryType) {
        String base = config.getJmxNameBase() == null ? BASE : config.getJmxNameBase();
        try {
            PoolBean bean = new PoolBean(pool, factoryType);
            try {
                return registerAs(bean, base + config.getJmxNamePrefix());
            } catch (MalformedObjectNameException e) {
                return registerAs(bean, BASE + BaseObjectPoolConfig.DEFAULT_JMX_NAME_PREFIX);
            }
        } catch (JMException e) {
            return null;
        }
    }

    private static ObjectName registerAs(PoolBean bean, String first) throws JMException {
        for (int number = 1; ; number++) {
            ObjectName name = new ObjectName(number == 1 ? first : first + number);
            try {
                ManagementFactory.getPlatformMBeanServer().registerMBean(bean, name);
                return name;
            } catch (InstanceAlreadyExistsException e) {
                // The next number is tried.
            }
        }
    }

    static void unregister(ObjectName name) {
        try {
            ManagementFactory.getPlatformMBeanServer().unregisterMBean(name);
        } catch (JMException e) {
            // It was unregistered before.
        }
    }

    private <R> R ask(Function<ZuphinkaPool<?>, R> question) {
        ZuphinkaPool<?> kept = pool.get();
        if (kept == null) {
            throw new IllegalStateException("The pool is no longer used");
        }
        return question.apply(kept);
    }

    @Override
    public boolean getBlockWhenExhausted() {
        return ask(ZuphinkaPool::getBlockWhenExhausted);
    }

    @Override
    public boolean getLifo() {
        return ask(ZuphinkaPool::getLifo);
    }

    @Override
    public boolean getFairness() {
        return ask(ZuphinkaPool::getFairness);
    }

    @Override
    public int getMaxIdle() {
        return ask(ZuphinkaPool::getMaxIdle);
    }

    @Override
    public int getMinIdle() {
        return ask(ZuphinkaPool::getMinIdle);
    }

    @Override
    public int getMaxTotal() {
        return ask(ZuphinkaPool::getMaxTotal);
    }

    @Override
    public long getMaxWaitMillis() {
        return ask(ZuphinkaPool::getMaxWaitDuration).toMillis();
    }

    @Override
    public long getMinEvictableIdleTimeMillis() {
        return ask(ZuphinkaPool::getMinEvictableIdleDuration).toMillis();
    }

    @Override
    public int getNumTestsPerEvictionRun() {
        return ask(ZuphinkaPool::getNumTestsPerEvictionRun);
    }

    @Override
    public boolean getTestOnCreate() {
        return ask(ZuphinkaPool::getTestOnCreate);
    }

    @Override
    public boolean getTestOnBorrow() {
        return ask(ZuphinkaPool::getTestOnBorrow);
    }

    @Override
    public boolean getTestOnReturn() {
        return ask(ZuphinkaPool::getTestOnReturn);
    }

    @Override
    public boolean getTestWhileIdle() {
        return ask(ZuphinkaPool::getTestWhileIdle);
    }

    @Override
    public long getTimeBetweenEvictionRunsMillis() {
        return ask(ZuphinkaPool::getDurationBetweenEvictionRuns).toMillis();
    }

    @Override
    public boolean isClosed() {
        ZuphinkaPool<?> kept = pool.get();
        return kept == null || kept.isClosed();
    }

    @Override
    public int getNumActive() {
        return ask(ZuphinkaPool::getNumActive);
    }

    @Override
    public int getNumIdle() {
        return ask(ZuphinkaPool::getNumIdle);
    }

    @Override
    public int getNumWaiters() {
        return ask(ZuphinkaPool::getNumWaiters);
    }

    @Override
    public long getCreatedCount() {
        return ask(ZuphinkaPool::getCreatedCount);
    }

    @Override
    public long getBorrowedCount() {
        return ask(ZuphinkaPool::getBorrowedCount);
    }

    @Override
    public long getReturnedCount() {
        return ask(ZuphinkaPool::getReturnedCount);
    }

    @Override
    public long getDestroyedCount() {
        return ask(ZuphinkaPool::getDestroyedCount);
    }

    @Override
    public long getDestroyedByEvictorCount() {
        return ask(ZuphinkaPool::getDestroyedByEvictorCount);
    }

    @Override
    public long getDestroyedByBorrowValidationCount() {
        return ask(ZuphinkaPool::getDestroyedByBorrowValidationCount);
    }

    @Override
    public long getMaxBorrowWaitTimeMillis() {
        return ask(ZuphinkaPool::getMaxBorrowWaitTimeMillis);
    }

    @Override
    public long getMeanBorrowWaitTimeMillis() {
        return ask(ZuphinkaPool::getMeanBorrowWaitTimeMillis);
    }

    @Override
    public boolean isAbandonedConfig() {
        return ask(ZuphinkaPool::isAbandonedConfig);
    }

    @Override
    public boolean getLogAbandoned() {
        return ask(ZuphinkaPool::getLogAbandoned);
    }

    @Override
    public boolean getRemoveAbandonedOnBorrow() {
        return ask(ZuphinkaPool::getRemoveAbandonedOnBorrow);
    }

    @Override
    public boolean getRemoveAbandonedOnMaintenance() {
        return ask(ZuphinkaPool::getRemoveAbandonedOnMaintenance);
    }

    @Override
    public int getRemoveAbandonedTimeout() {
        return (int) ask(ZuphinkaPool::getRemoveAbandonedTimeoutDuration).getSeconds();
    }

    @Override
    public String getFactoryType() {
        return factoryType;
    }

    @Override
    public String getCreationStackTrace() {
        return creationStackTrace;
    }

    @Override
    public Set<DefaultPooledObjectInfo> listAllObjects() {
        return ask(ZuphinkaPool::listAllObjects);
    }
}
