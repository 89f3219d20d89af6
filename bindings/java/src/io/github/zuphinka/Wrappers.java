package io.github.zuphinka;

import org.apache.commons.pool2.PooledObject;
import org.apache.commons.pool2.impl.DefaultPooledObject;

/** The wrappers of a pool's objects, as far as they are told of the loans. */
final class Wrappers<T> {
    /** Whether no method of the factory sees one after the first loan of its object. */
    private volatile boolean areUnseen;

    void setUnseen(boolean value) {
        areUnseen = value;
    }

    /** Has that of a new object. It is told of each loan if it is of the user's own class, or if its object says itself when it was last used. */
    void add(Member<T> member, boolean isTracked) {
        PooledObject<T> pooled = member.pooled;
        boolean isOrdinary = pooled.getClass() == DefaultPooledObject.class || pooled.getClass() == TimedObject.class;
        member.isWrapperTold = !areUnseen || isTracked || !isOrdinary;
        member.timed = isOrdinary && pooled instanceof TimedObject ? (TimedObject<T>) pooled : null;
    }

    /** Tells one that its object is lent since a time of {@link System#nanoTime}, unless it was told, or none need be. */
    void tellLoan(Member<T> member, long nanoTime) {
        if (!member.isLoanTold && (member.isWrapperTold || !areUnseen)) {
            member.isLoanTold = true;
            if (member.timed == null) {
                member.pooled.allocate();
            } else {
                member.timed.allocate(nanoTime);
            }
        }
    }

    /** Tells one that its object is returned at a time of {@link System#nanoTime}, if it was told that it is lent. */
    void tellReturn(Member<T> member, long nanoTime) {
        if (member.isLoanTold) {
            member.isLoanTold = false;
            if (member.timed == null) {
                member.pooled.deallocate();
            } else {
                member.timed.deallocate(nanoTime);
            }
        }
    }
}
