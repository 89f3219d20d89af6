package io.github.zuphinka;

import java.util.Collection;
import java.util.concurrent.ConcurrentHashMap;

/** The objects of a pool by identity, whatever their {@code equals} says: those that have a place, and lent ones that were reclaimed. */
final class Objects<T> {
    private final ConcurrentHashMap<Identity, Member<T>> members = new ConcurrentHashMap<>();

    static final class Identity {
        private final Object object;

        Identity(Object object) {
            this.object = object;
        }

        @Override
        public int hashCode() {
            return System.identityHashCode(object);
        }

        @Override
        public boolean equals(Object other) {
            return other instanceof Identity && ((Identity) other).object == object;
        }
    }

    /** Adds an object, and returns whether it was not there. */
    boolean add(Member<T> member) {
        member.identity = new Identity(member.pooled.getObject());
        return members.putIfAbsent(member.identity, member) == null;
    }

    /** Removes an object, if it was added. It needs no memory. */
    void remove(Member<T> member) {
        if (member.identity != null) {
            members.remove(member.identity, member);
        }
    }

    /** Returns an object; null if it is not of this pool. */
    Member<T> find(T object) {
        return members.get(new Identity(object));
    }

    Collection<Member<T>> all() {
        return members.values();
    }
}
