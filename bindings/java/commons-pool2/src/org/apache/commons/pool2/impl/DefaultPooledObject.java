package org.apache.commons.pool2.impl;

import io.github.zuphinka.TimedObject;
import org.apache.commons.pool2.PooledObject;

/**
 * The class of Commons Pool 2 with this name, which a pool tells when its object is lent and returned.
 *
 * @param <T> the type of the object
 */
public class DefaultPooledObject<T> extends TimedObject<T> implements PooledObject<T> {
    /**
     * Wraps an object.
     *
     * @param object the object
     */
    public DefaultPooledObject(T object) {
        super(object);
    }
}
