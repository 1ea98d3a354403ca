package rdrecord;

import java.util.Collection;
import java.util.Iterator;
import java.util.Map;
import java.util.Set;
import java.util.concurrent.ConcurrentHashMap;
import java.util.concurrent.ConcurrentMap;
import java.util.function.BiConsumer;
import java.util.function.BiFunction;
import java.util.function.Function;
import java.util.function.Predicate;

/**
 * What the rewritten code calls for maps: the last argument is the place. A concurrent map is a dictionary. What a thread did before it put a
 * value comes before what follows the call that finds it, which is told by pairs around the calls; the calls themselves are not ordered.
 */
@SuppressWarnings({"rawtypes", "unchecked"})
public final class Maps {
    private Maps() { }

    private static Things.Thing thing(Map map) {
        if (!(map instanceof ConcurrentMap) && !Asked.fields()) return null;
        Things.Thing thing = Things.of(map);
        return thing == null || !thing.kind.equals("dictionary") ? null : thing;
    }

    private static String value(Object value) { return Values.spell(value); }

    private static String got(Things.Thing t, Object key, Object value) { return "get " + t.key(key) + " -> " + value(value); }

    private static String put(Things.Thing t, Object key, Object value, Object old) {
        return "put " + t.key(key) + " " + value(value) + " -> " + value(old);
    }

    private static void sending(Things.Thing t, Object key) { if (Trace.several()) Trace.send(t.bucket(key)); }

    private static void found(Things.Thing t, Object key, Object value) {
        if (value != null && Trace.several()) Trace.receive(t.bucket(key));
    }

    public static Object get(Map map, Object key, int place) {
        Things.Thing t = thing(map);
        if (t == null) return Guarded.is(map) ? Guarded.run(map, () -> map.get(key)) : map.get(key);
        boolean one = t.begin();
        Object value;
        try {
            value = map.get(key);
            t.call(place, got(t, key, value));
        } finally {
            t.end(one);
        }
        found(t, key, value);
        return value;
    }

    public static Object getOrDefault(Map map, Object key, Object other, int place) {
        if (thing(map) == null) return Guarded.is(map) ? Guarded.run(map, () -> map.getOrDefault(key, other)) : map.getOrDefault(key, other);
        Object value = get(map, key, place);
        return value == null ? other : value;
    }

    public static boolean containsKey(Map map, Object key, int place) {
        if (thing(map) == null) return Guarded.is(map) ? Guarded.run(map, () -> map.containsKey(key)) : map.containsKey(key);
        return get(map, key, place) != null;
    }

    public static Object put(Map map, Object key, Object value, int place) {
        Things.Thing t = thing(map);
        if (t == null) return Guarded.is(map) ? Guarded.run(map, () -> map.put(key, value)) : map.put(key, value);
        sending(t, key);
        boolean one = t.begin();
        Object old;
        try {
            old = map.put(key, value);
            t.call(place, put(t, key, value, old));
        } finally {
            t.end(one);
        }
        found(t, key, old);
        return old;
    }

    public static Object remove(Map map, Object key, int place) {
        Things.Thing t = thing(map);
        if (t == null) return Guarded.is(map) ? Guarded.run(map, () -> map.remove(key)) : map.remove(key);
        boolean one = t.begin();
        Object old;
        try {
            old = map.remove(key);
            t.call(place, put(t, key, null, old));
        } finally {
            t.end(one);
        }
        found(t, key, old);
        return old;
    }

    public static boolean remove(Map map, Object key, Object value, int place) {
        Things.Thing t = thing(map);
        if (t == null) return Guarded.is(map) ? Guarded.run(map, () -> map.remove(key, value)) : map.remove(key, value);
        boolean one = t.begin();
        Object seen;
        boolean done;
        try {
            seen = map.get(key);
            done = map.remove(key, value);
            t.call(place, done ? put(t, key, null, seen) : got(t, key, seen));
        } finally {
            t.end(one);
        }
        found(t, key, seen);
        return done;
    }

    public static Object putIfAbsent(Map map, Object key, Object value, int place) {
        Things.Thing t = thing(map);
        if (t == null) return Guarded.is(map) ? Guarded.run(map, () -> map.putIfAbsent(key, value)) : map.putIfAbsent(key, value);
        sending(t, key);
        boolean one = t.begin();
        Object old;
        try {
            old = map.putIfAbsent(key, value);
            t.call(place, old == null ? put(t, key, value, null) : got(t, key, old));
        } finally {
            t.end(one);
        }
        found(t, key, old);
        return old;
    }

    public static Object replace(Map map, Object key, Object value, int place) {
        Things.Thing t = thing(map);
        if (t == null) return Guarded.is(map) ? Guarded.run(map, () -> map.replace(key, value)) : map.replace(key, value);
        sending(t, key);
        boolean one = t.begin();
        Object old;
        try {
            old = map.replace(key, value);
            t.call(place, old == null ? got(t, key, null) : put(t, key, value, old));
        } finally {
            t.end(one);
        }
        found(t, key, old);
        return old;
    }

    public static boolean replace(Map map, Object key, Object before, Object value, int place) {
        Things.Thing t = thing(map);
        if (t == null) return Guarded.is(map) ? Guarded.run(map, () -> map.replace(key, before, value)) : map.replace(key, before, value);
        sending(t, key);
        boolean one = t.begin();
        Object seen;
        boolean done;
        try {
            seen = map.get(key);
            done = map.replace(key, before, value);
            t.call(place, done ? put(t, key, value, seen) : got(t, key, seen));
        } finally {
            t.end(one);
        }
        found(t, key, seen);
        return done;
    }

    public static Object computeIfAbsent(Map map, Object key, Function how, int place) {
        Things.Thing t = thing(map);
        if (t == null) return Guarded.is(map) ? Guarded.run(map, () -> map.computeIfAbsent(key, how)) : map.computeIfAbsent(key, how);
        boolean[] made = {false};
        Object value;
        boolean one = t.begin();
        try {
            value = map.computeIfAbsent(key, k -> {
                Object next = how.apply(k);
                if (next != null) sending(t, key);
                made[0] = next != null;
                return next;
            });
            t.call(place, made[0] ? put(t, key, value, null) : got(t, key, value));
        } finally {
            t.end(one);
        }
        found(t, key, value);
        return value;
    }

    public static Object computeIfPresent(Map map, Object key, BiFunction how, int place) {
        if (thing(map) == null) return Guarded.is(map) ? Guarded.run(map, () -> map.computeIfPresent(key, how)) : map.computeIfPresent(key, how);
        return change(map, key, how, place, then -> map.computeIfPresent(key, then));
    }

    public static Object compute(Map map, Object key, BiFunction how, int place) {
        if (thing(map) == null) return Guarded.is(map) ? Guarded.run(map, () -> map.compute(key, how)) : map.compute(key, how);
        return change(map, key, how, place, then -> map.compute(key, then));
    }

    public static Object merge(Map map, Object key, Object value, BiFunction how, int place) {
        if (thing(map) == null) return Guarded.is(map) ? Guarded.run(map, () -> map.merge(key, value, how)) : map.merge(key, value, how);
        BiFunction merged = (k, old) -> old == null ? value : how.apply(old, value);
        return change(map, key, merged, place, then -> map.compute(key, then));
    }

    private static Object change(Map map, Object key, BiFunction how, int place, Function<BiFunction, Object> run) {
        Things.Thing t = thing(map);
        Object[] old = {null};
        Object value;
        boolean one = t.begin();
        try {
            boolean[] ran = {false};
            value = run.apply((k, was) -> {
                found(t, key, was);
                Object next = how.apply(k, was);
                sending(t, key);
                old[0] = was;
                ran[0] = true;
                return next;
            });
            t.call(place, ran[0] ? put(t, key, value, old[0]) : got(t, key, value));
        } finally {
            t.end(one);
        }
        found(t, key, value);
        return value;
    }

    public static int size(Map map, int place) {
        Things.Thing t = thing(map);
        if (t == null) return Guarded.is(map) ? Guarded.run(map, map::size) : map.size();
        boolean one = t.begin();
        try {
            int size = map.size();
            t.call(place, "size -> " + size);
            return size;
        } finally {
            t.end(one);
        }
    }

    public static boolean isEmpty(Map map, int place) {
        if (thing(map) == null) return Guarded.is(map) ? Guarded.run(map, map::isEmpty) : map.isEmpty();
        return size(map, place) == 0;
    }

    public static long mappingCount(ConcurrentHashMap map, int place) { return size(map, place); }

    public static void putAll(Map map, Map other, int place) {
        if (thing(map) == null) {
            if (Guarded.is(map)) Guarded.run(map, () -> { map.putAll(other); return null; });
            else map.putAll(other);
            return;
        }
        for (Object each : other.entrySet()) put(map, ((Map.Entry) each).getKey(), ((Map.Entry) each).getValue(), place);
    }

    public static void clear(Map map, int place) {
        if (thing(map) == null) {
            if (Guarded.is(map)) Guarded.run(map, () -> { map.clear(); return null; });
            else map.clear();
            return;
        }
        for (Object key : map.keySet().toArray()) remove(map, key, place);
    }

    public static void replaceAll(Map map, BiFunction how, int place) {
        if (thing(map) == null) {
            if (Guarded.is(map)) Guarded.run(map, () -> { map.replaceAll(how); return null; });
            else map.replaceAll(how);
            return;
        }
        for (Object key : map.keySet().toArray()) computeIfPresent(map, key, how, place);
    }

    public static void forEach(Map map, BiConsumer with, int place) {
        Things.Thing t = thing(map);
        if (t == null) {
            if (Guarded.is(map)) Guarded.run(map, () -> { map.forEach(with); return null; });
            else map.forEach(with);
            return;
        }
        map.forEach((key, value) -> {
            t.receiveAll();
            with.accept(key, value);
        });
    }

    // A view of a recorded map: what is taken out of it is taken out of the map.

    private record View(Map map, char sort) { }

    private static final Weak<Object, View> VIEWS = new Weak<>();

    private static <C extends Collection> C view(Map map, C view, char sort) {
        Things.Thing t = view == null ? null : thing(map);
        if (t == null) return view;
        if (VIEWS.get(view) == null) VIEWS.put(view, new View(map, sort));
        t.receiveAll();
        return view;
    }

    public static Set keySet(Map map, int place) { return view(map, map.keySet(), 'k'); }

    public static Collection values(Map map, int place) { return view(map, map.values(), 'v'); }

    public static Set entrySet(Map map, int place) { return view(map, map.entrySet(), 'e'); }

    public static ConcurrentHashMap.KeySetView keySet(ConcurrentHashMap map, int place) { return view(map, map.keySet(), 'k'); }

    static boolean isView(Object it) { return VIEWS.get(it) != null; }

    static void copied(Map map) {
        Things.Thing t = thing(map);
        if (t != null) t.receiveAll();
    }

    /** What a walk over a view finds was put before. */
    static void receiveAll(Object view) {
        View of = VIEWS.get(view);
        if (of != null) thing(of.map()).receiveAll();
    }

    /** An iterator whose remove is a call on the map. */
    static Iterator iterator(Collection view, int place) {
        View of = VIEWS.get(view);
        Iterator inner = view.iterator();
        return new Iterator() {
            private Object last;

            @Override public boolean hasNext() { return inner.hasNext(); }

            @Override public Object next() {
                last = inner.next();
                thing(of.map()).receiveAll();
                return last;
            }

            @Override public void remove() {
                if (of.sort() == 'v') {
                    thing(of.map()).drop("remove by an iterator of its values");
                    inner.remove();
                    return;
                }
                if (last == null) throw new IllegalStateException();
                Maps.remove(of.map(), of.sort() == 'e' ? ((Map.Entry) last).getKey() : last, place);
                last = null;
            }
        };
    }

    static boolean removeIf(Collection view, Predicate test, int place) {
        View of = VIEWS.get(view);
        boolean any = false;
        for (Object each : of.map().entrySet()) {
            Map.Entry entry = (Map.Entry) each;
            Object seen = of.sort() == 'k' ? entry.getKey() : of.sort() == 'v' ? entry.getValue() : entry;
            if (test.test(seen)) any |= remove(of.map(), entry.getKey(), entry.getValue(), place);
        }
        return any;
    }

    static boolean removeFrom(Collection view, Object item, int place) {
        View of = VIEWS.get(view);
        if (of.sort() == 'k') return remove(of.map(), item, place) != null;
        if (of.sort() == 'e') {
            return item instanceof Map.Entry entry && remove(of.map(), entry.getKey(), entry.getValue(), place);
        }
        for (Object each : of.map().entrySet()) {
            Map.Entry entry = (Map.Entry) each;
            if (entry.getValue().equals(item) && remove(of.map(), entry.getKey(), entry.getValue(), place)) return true;
        }
        return false;
    }

    static void clearAll(Collection view, int place) { clear(VIEWS.get(view).map(), place); }
}
