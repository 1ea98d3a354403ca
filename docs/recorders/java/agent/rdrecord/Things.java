package rdrecord;

import java.util.Map;
import java.util.concurrent.ConcurrentHashMap;
import java.util.concurrent.ConcurrentLinkedQueue;
import java.util.concurrent.ConcurrentSkipListMap;
import java.util.concurrent.ConcurrentSkipListSet;
import java.util.concurrent.CopyOnWriteArraySet;
import java.util.concurrent.locks.ReentrantLock;

/** The objects of the trace: which there are, and how a call on one and its line are one step. */
final class Things {
    private static final long MOST_NANOS = 5_000_000;                    // of waiting for another thread's step
    private static final int BUCKETS = 16;
    private static final Weak<Object, Thing> TABLE = new Weak<>();
    private static final ClassValue<String> KIND = new ClassValue<>() {
        @Override protected String computeValue(Class<?> of) {
            for (Class<?> c = of; c != null; c = c.getSuperclass()) {
                Asked.Entry asked = Asked.ofClass(c.getName());
                if (asked != null && asked.methods.isEmpty()) return asked.kind;
            }
            if (of == ConcurrentHashMap.class || of == ConcurrentSkipListMap.class) return "dictionary";
            if (of == ConcurrentLinkedQueue.class) return "queue";
            if (ConcurrentHashMap.class.isAssignableFrom(of) || ConcurrentSkipListMap.class.isAssignableFrom(of)) return "order";
            boolean set = of == ConcurrentHashMap.KeySetView.class || of == ConcurrentSkipListSet.class || of == CopyOnWriteArraySet.class;
            return set ? "set" : "";
        }
    };

    private Things() { }

    /** An object of the trace. */
    static final class Thing {
        final String kind;
        final Asked.Entry asked;                                         // why a class or a field is recorded, if it isn't by itself
        private final String sort;
        private String name;
        private boolean dropped;
        final ReentrantLock step = new ReentrantLock();                  // a call and its line, where all goes well
        final Map<Object, String> keys = new ConcurrentHashMap<>();
        private final Order[] buckets = new Order[BUCKETS];

        Thing(String sort, String kind, Asked.Entry asked) {
            this.sort = sort;
            this.kind = kind;
            this.asked = asked;
        }

        /** Begins a step, and says whether it is one: nobody waits for long, since code of the program may run inside. */
        boolean begin() {
            if (step.tryLock()) return true;
            long until = System.nanoTime() + MOST_NANOS;
            while (System.nanoTime() < until) {
                Trace.moment();
                if (step.tryLock()) return true;
            }
            Trace.tell("a call and its line weren't one step, since another call took long: the replay may differ");
            return false;
        }

        void end(boolean one) {
            if (one) step.unlock();
            Trace.rest();
        }

        void call(int place, String... calls) {
            if (declared()) Trace.call(Places.text(place), name, calls);
        }

        /** A call of a method that the rewritten class has: its place is where that was called. */
        void callFrom(String call) {
            if (declared()) Trace.call(Places.caller(asked.what), name, call);
        }

        private boolean declared() {
            if (dropped || Trace.me().quiet > 0) return false;
            if (name == null) {
                synchronized (this) {
                    if (name == null) name = Trace.object(sort, kind);
                }
            }
            return name != null;
        }

        /** No more of it is recorded: something was done that its kind hasn't. */
        void drop(String what) {
            if (dropped) return;
            dropped = true;
            Trace.tell((name == null ? sort : name) + " isn't recorded any more: " + what);
        }

        String key(Object key) { return Values.key(key, keys); }

        /** The order that a key's value gives: from who put it to who finds it. */
        Order bucket(Object key) {
            int hash = key == null ? 0 : known(key) ? key.hashCode() : System.identityHashCode(key.getClass());
            int i = (hash ^ hash >>> 16) & BUCKETS - 1;
            synchronized (buckets) {
                if (buckets[i] == null) buckets[i] = Trace.order(sort + "-keys");
                return buckets[i];
            }
        }

        /** A walk finds what others put. */
        void receiveAll() {
            for (int i = 0; i < BUCKETS; i++) {
                Order order = buckets[i];
                if (order != null) Trace.receive(order);
            }
        }

        private static boolean known(Object key) {
            return key instanceof String || key instanceof Integer || key instanceof Long || key instanceof Enum;
        }
    }

    /** The object of the trace that this one is, or null. */
    static Thing of(Object it) {
        if (it == null) return null;
        if (KIND.get(it.getClass()).isEmpty()) return Asked.fields() ? TABLE.get(it) : null;
        return TABLE.get(it, o -> make(o, KIND.get(o.getClass())));
    }

    /** A map that the program has below one of Java's may do what it likes: it orders, and is no object. So is one with an order of its own. */
    private static Thing make(Object of, String kind) {
        boolean own = of instanceof ConcurrentSkipListMap<?, ?> map && map.comparator() != null
            || of instanceof ConcurrentSkipListSet<?> set && set.comparator() != null;
        String as = kind.equals("order") ? "dictionary" : kind;
        Thing made = new Thing(Values.label(of.getClass()), as, null);
        made.dropped = own || kind.equals("order");
        return made;
    }

    static Thing known(Object it) { return TABLE.get(it); }

    /** An object that a field holds is one of the trace. */
    static Thing name(Object it, Asked.Entry asked) {
        Thing found = TABLE.get(it);
        return found != null ? found : TABLE.get(it, o -> new Thing(asked.name(), asked.kind, asked));
    }

    static Thing ofClass(Object it, Asked.Entry asked) {
        return TABLE.get(it, o -> new Thing(Values.label(o instanceof Class<?> c ? c : o.getClass()), asked.kind, asked));
    }
}
