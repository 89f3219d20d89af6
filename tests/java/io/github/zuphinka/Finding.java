package io.github.zuphinka;

import java.util.ArrayList;
import java.util.List;
import java.util.Objects;
import java.util.Random;
import java.util.stream.Collectors;

/** Looks at the objects that have a place: each is found by its slot, also among many, and a search finds all of them in their order. */
public final class Finding {
    /** So many objects, if each search looks at all others, take minutes. */
    private static final int MANY = 1_000_000;

    private final List<String> faults = new ArrayList<>();
    private final Members<Object> members = new Members<>();
    private final List<Member<Object>> present = new ArrayList<>();
    private long next;

    private Finding() {}

    /** Returns what is wrong. */
    public static List<String> faults() {
        Finding some = new Finding();
        Random random = new Random(1);
        for (int round = 0; round < 20_000; round++) {
            // More come than go in some thousand rounds, and more go than come in others.
            if (random.nextInt(10) < (round / 3_000 % 2 == 0 ? 7 : 3)) {
                some.add();
            } else {
                some.removeAt(random.nextInt(Math.max(1, some.present.size())));
            }
            if (round % 1_000 == 0) {
                some.search();
            }
        }
        Finding many = new Finding();
        for (int number = 0; number < MANY; number++) {
            many.add();
        }
        for (int number = 0; number < MANY; number++) {
            many.removeAt(many.present.size() - 1);
        }
        some.faults.addAll(many.faults);
        return some.faults;
    }

    private void expect(String name, Object wanted, Object got) {
        if (!Objects.equals(wanted, got) && faults.size() < 10) {
            faults.add(name + ": wanted " + wanted + ", got " + got);
        }
    }

    private void add() {
        Member<Object> member = members.add(next++);
        present.add(member);
        expect("a new object", member, members.at(member.slot));
        expect("its id", next - 1, member.id);
    }

    private void removeAt(int position) {
        if (present.isEmpty()) {
            return;
        }
        Member<Object> member = present.remove(position);
        expect("by its slot", member, members.at(member.slot));
        members.remove(member);
        expect("once it is removed", null, members.at(member.slot));
        expect("their number", present.size(), members.size());
    }

    private List<Member<Object>> found() {
        return present.stream().map(member -> members.nextSought()).collect(Collectors.toList());
    }

    /** A search finds all by their ids, and goes on at the first one; also if the one that it looks at next is removed meanwhile. */
    private void search() {
        members.search();
        expect("a search", present, found());
        expect("a search that goes on", present, found());
        for (int position = present.size() - 1; position > 0; position -= Math.max(1, present.size() / 3)) {
            members.search();
            for (int number = 0; number < position; number++) {
                members.nextSought();
            }
            removeAt(position);
            expect("the next one", present.get(position < present.size() ? position : 0), members.nextSought());
        }
    }
}
