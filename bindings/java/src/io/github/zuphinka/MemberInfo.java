package io.github.zuphinka;

import org.apache.commons.pool2.PooledObjectState;
import org.apache.commons.pool2.impl.DefaultPooledObjectInfo;

/** What is known of an object whose wrapper is not told of its loans. It is always up to date, as that of the library. */
final class MemberInfo extends DefaultPooledObjectInfo {
    private final Numbers numbers;
    private final Member<?> member;

    MemberInfo(Numbers numbers, Member<?> member) {
        super(member.pooled);
        this.numbers = numbers;
        this.member = member;
    }

    private Loans loans() {
        return numbers.loansOf(member);
    }

    @Override
    public long getBorrowedCount() {
        return loans().count;
    }

    @Override
    public long getLastBorrowTime() {
        Loans loans = loans();
        return loans.count > 0 ? loans.lentMillis() : super.getLastBorrowTime();
    }

    @Override
    public long getLastReturnTime() {
        Loans loans = loans();
        return loans.hasReturn() ? loans.returnedMillis() : super.getLastReturnTime();
    }

    @Override
    public String toString() {
        PooledObjectState state = member.pooled.getState();
        boolean isLent = state != PooledObjectState.INVALID && loans().isLent;
        return "DefaultPooledObjectInfo [pooledObject=Object: " + getPooledObjectToString() + ", State: "
                + (isLent ? PooledObjectState.ALLOCATED : state) + "]";
    }
}
