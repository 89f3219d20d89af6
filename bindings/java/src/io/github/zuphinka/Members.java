package io.github.zuphinka;

import java.util.Arrays;

/**
 * The objects that have a place, by their slots, which are their tokens in the core, and in the order of their ids. The caller holds the lock of the
 * pool.
 */
final class Members<T> {
    private static final int FIRST_SLOTS = 8;
    @SuppressWarnings({"unchecked", "rawtypes"})
    private Member<T>[] slots = new Member[0];
    private int[] freeSlots = new int[0];
    private int free;
    /** The first and the last by their ids. Each knows the one before it and the next. */
    private Member<T> first;
    private Member<T> last;
    /** Which one a search looks at next; null: the first. */
    private Member<T> sought;

    /** Adds an object with this id, which is greater than those before it. */
    Member<T> add(long id) {
        if (free == 0) {
            grow();
        }
        Member<T> member = new Member<>(freeSlots[free - 1], id);
        free--;
        slots[member.slot] = member;
        member.previous = last;
        if (last == null) {
            first = member;
        } else {
            last.next = member;
        }
        last = member;
        return member;
    }

    private void grow() {
        int length = slots.length;
        int more = Math.max(FIRST_SLOTS, 2 * length);
        Member<T>[] longer = Arrays.copyOf(slots, more);
        int[] room = new int[more];
        slots = longer;
        freeSlots = room;
        for (int slot = more - 1; slot >= length; slot--) {
            freeSlots[free++] = slot;
        }
    }

    /** Removes an object whose place is free. */
    void remove(Member<T> member) {
        slots[member.slot] = null;
        freeSlots[free++] = member.slot;
        unlink(member);
    }

    private void unlink(Member<T> member) {
        if (member.previous == null) {
            first = member.next;
        } else {
            member.previous.next = member.next;
        }
        if (member.next == null) {
            last = member.previous;
        } else {
            member.next.previous = member.previous;
        }
        sought = sought == member ? member.next : sought;
        member.previous = null;
        member.next = null;
    }

    /** Begins a search at the first object. */
    void search() {
        sought = first;
    }

    /** Returns the next object of a search, which goes on at the first one after the last. There is one. */
    Member<T> nextSought() {
        Member<T> found = sought == null ? first : sought;
        sought = found.next;
        return found;
    }

    /** Returns the object with this token. */
    Member<T> at(int slot) {
        return slots[slot];
    }

    /** Returns the number of objects. */
    int size() {
        return slots.length - free;
    }
}
