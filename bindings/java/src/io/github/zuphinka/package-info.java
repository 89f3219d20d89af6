/**
 * An object pool with the interface and the behaviour of Commons Pool's {@code GenericObjectPool}, over the proved core of Zuphinka.
 *
 * <p>{@link io.github.zuphinka.ZuphinkaPool} is the pool. {@link io.github.zuphinka.Journal} says what becomes of its journal.
 */
package io.github.zuphinka;
