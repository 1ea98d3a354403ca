package rdrecord;

import java.util.ArrayList;
import java.util.Collection;
import java.util.HashMap;
import java.util.List;
import java.util.Map;

/** What the rewritten code calls for volatile fields, for fields that the file of objects names, and for the initialisation of classes. */
public final class Fields {
    private static final int OWN = 1024;                                 // locks of one field, before they are shared
    private static final int SHARED = 64;
    private static final Map<String, Integer> NUMBERS = new HashMap<>();
    private static final List<Field> ALL = new ArrayList<>();
    private static volatile Field[] fields = {};
    private static final Map<String, Integer> CLASSES = new HashMap<>();
    private static volatile Order[] inits = {};

    private Fields() { }

    private static final class Field {
        final String name;
        final Weak<Object, Order> orders = new Weak<>();
        final Weak<Object, Things.Thing> things = new Weak<>();
        final Order[] shared = new Order[SHARED];
        final Object ofClass = new Object();                             // stands for the object of a static field
        private int made;

        Field(String name) { this.name = name; }

        synchronized Order make() {
            if (made++ < OWN) return Trace.order(name);
            int i = made % SHARED;
            if (shared[i] == null) shared[i] = Trace.order(name);
            return shared[i];
        }
    }

    /** The number of a field. */
    static synchronized int number(String owner, String name) {
        return NUMBERS.computeIfAbsent(owner + "." + name, k -> {
            ALL.add(new Field(owner.substring(owner.lastIndexOf('/') + 1) + "." + name));
            fields = ALL.toArray(new Field[0]);
            return ALL.size() - 1;
        });
    }

    /** Before a volatile field is written. */
    public static void writing(Object of, int number) {
        if (!Trace.several()) return;
        Field field = fields[number];
        if (of == null) of = field.ofClass;
        Trace.send(field.orders.get(of, o -> field.make()));
    }

    /** The same in a constructor, of an object that others can't know if nobody has told of it. */
    public static void writingIfKnown(Object of, int number) {
        if (Trace.several() && fields[number].orders.get(of) != null) writing(of, number);
    }

    /** Behind a read of a volatile field. */
    public static void read(Object of, int number) {
        if (!Trace.several()) return;
        Field field = fields[number];
        Order order = field.orders.get(of == null ? field.ofClass : of);
        if (order != null) Trace.receive(order);
    }

    // Atomic steps on fields, by what names the field.

    private static final Weak<Object, Integer> HANDLES = new Weak<>();

    private static final ThreadLocal<Integer> NAMED = new ThreadLocal<>();

    /** Before a handle of a field is made, of the class that makes it. */
    public static void handleOf(String name, String owner) { NAMED.set(number(owner, name)); }

    /** Behind it. */
    public static void handleIs(Object handle) {
        Integer number = NAMED.get();
        if (number != null && handle != null) HANDLES.put(handle, number);
        NAMED.remove();
    }

    /** Before a step on a field by a handle of it. */
    public static void before(Object handle, Object of) {
        Integer number = Trace.several() ? HANDLES.get(handle) : null;
        if (number != null) writing(of, number);
    }

    /** Behind it. */
    public static void after(Object handle, Object of) {
        Integer number = Trace.several() ? HANDLES.get(handle) : null;
        if (number != null) read(of, number);
    }

    // Fields that are registers.

    private static Things.Thing register(Object of, int number, int asked) {
        Field field = fields[number];
        return field.things.get(of == null ? field.ofClass : of, o -> new Things.Thing(Asked.of(asked).name(), "register", Asked.of(asked)));
    }

    /** Begins a read or an assignment; a field of no object has none. */
    public static boolean begin(Object of, int number, int asked) { return register(of, number, asked).begin(); }

    /** Ends a read. */
    public static void wasRead(Object of, Object value, int number, int asked, boolean one, int place) {
        Things.Thing t = register(of, number, asked);
        t.call(place, "read -> " + content(value));
        t.end(one);
    }

    /** Ends an assignment. */
    public static void wasWritten(Object of, Object value, int number, int asked, boolean one, int place) {
        Things.Thing t = register(of, number, asked);
        t.call(place, "write " + content(value) + " -> nil");
        t.end(one);
    }

    /** What a field holds at first is spelled as nothing, which is what a register holds at first. */
    private static String content(Object value) {
        boolean first = value == null || value.equals(0) || value.equals(false) || value.equals(0L) || value.equals('\0')
            || value instanceof Double d && Double.doubleToRawLongBits(d) == 0 || value instanceof Float f && Float.floatToRawIntBits(f) == 0
            || value instanceof Short s && s == 0 || value instanceof Byte b && b == 0;
        return first ? "nil" : Values.content(value);
    }

    /** Before an object is assigned to a field that is asked for: it is an object of the trace, with what it holds. */
    public static void named(Object it, int asked) {
        if (it == null || Things.known(it) != null) return;
        Things.Thing t = Things.name(it, Asked.of(asked));
        if (it instanceof Map<?, ?> map && t.kind.equals("dictionary")) {
            map.forEach((key, value) -> t.call(0, "put " + t.key(key) + " " + Values.spell(value) + " -> nil"));
        } else if (it instanceof Collection<?> all && (t.kind.equals("set") || t.kind.equals("queue") || t.kind.equals("bag"))) {
            for (Object item : all) {
                if (t.kind.equals("set")) t.call(0, "add " + t.key(item) + " -> true");
                else t.call(0, (t.kind.equals("bag") ? "add " : "enqueue ") + Values.spell(item) + " -> nil");
            }
        } else {
            Atomics.first(it, t);
        }
    }

    // Classes.

    static synchronized int ofClass(String name) {
        return CLASSES.computeIfAbsent(name, k -> {
            inits = java.util.Arrays.copyOf(inits, CLASSES.size() + 1);
            return CLASSES.size();
        });
    }

    /** At the end of the initialisation of a class. Before there was a second thread, all later threads come behind it by their forks. */
    public static void initialized(int number, String name) {
        if (!Trace.several()) return;
        Order order = Trace.order(name.substring(name.lastIndexOf('/') + 1) + ".init");
        Trace.send(order);
        synchronized (Fields.class) {
            inits[number] = order;
        }
    }

    /** Behind a read of a static field. */
    public static void used(int number) {
        Order order = inits[number];
        if (order != null) Trace.receive(order);
    }
}
