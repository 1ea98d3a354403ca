package rdrecord;

import java.lang.ref.ReferenceQueue;
import java.lang.ref.WeakReference;
import java.util.concurrent.ConcurrentHashMap;
import java.util.function.Function;

/** A table by identity that keeps no object alive. */
final class Weak<K, V> {
    private final ConcurrentHashMap<Object, V> table = new ConcurrentHashMap<>();
    private final ReferenceQueue<Object> gone = new ReferenceQueue<>();

    private static final class Key extends WeakReference<Object> {
        private final int hash;

        Key(Object of, ReferenceQueue<Object> gone) {
            super(of, gone);
            hash = System.identityHashCode(of);
        }

        @Override public int hashCode() { return hash; }
        @Override public boolean equals(Object other) {
            if (this == other) return true;
            Object mine = get();
            return mine != null && (other instanceof Probe p ? p.of == mine : other instanceof Key k && k.get() == mine);
        }
    }

    private record Probe(Object of) {
        @Override public int hashCode() { return System.identityHashCode(of); }
        @Override public boolean equals(Object other) {
            return other instanceof Key k ? k.get() == of : other instanceof Probe p && p.of == of;
        }
    }

    V get(K of) { return of == null ? null : table.get(new Probe(of)); }

    /** What stands for this object, made where there is nothing yet. */
    V get(K of, Function<? super K, ? extends V> make) {
        V found = table.get(new Probe(of));
        if (found != null) return found;
        tidy();
        return table.computeIfAbsent(new Key(of, gone), key -> make.apply(of));
    }

    void put(K of, V value) {
        tidy();
        table.put(new Key(of, gone), value);
    }

    private void tidy() {
        for (Object key = gone.poll(); key != null; key = gone.poll()) table.remove(key);
    }
}
