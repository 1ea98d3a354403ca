package rdrecord;

import java.lang.reflect.Field;
import java.util.Map;
import java.util.concurrent.ConcurrentHashMap;
import java.util.function.Supplier;
import sun.misc.Unsafe;

/** What the rewritten code calls for steps on fields and on slots of arrays by sun.misc.Unsafe, as libraries make them. */
public final class Unsafes {
    private static final Map<String, Integer> FIELDS = new ConcurrentHashMap<>();   // by class and offset
    private static final Weak<Object, Order> ARRAYS = new Weak<>();

    private Unsafes() { }

    public static long objectFieldOffset(Unsafe by, Field field) {
        long offset = by.objectFieldOffset(field);
        String owner = field.getDeclaringClass().getName();
        FIELDS.put(owner + "@" + offset, Fields.number(owner.replace('.', '/'), field.getName()));
        return offset;
    }

    private static int number(Object of, long offset) {
        for (Class<?> c = of.getClass(); c != null; c = c.getSuperclass()) {
            Integer number = FIELDS.get(c.getName() + "@" + offset);
            if (number != null) return number;
        }
        return -1;
    }

    private static void before(Object of, long offset) {
        if (of == null || !Trace.several()) return;
        if (of.getClass().isArray()) {
            Trace.send(ARRAYS.get(of, o -> Trace.order("array")));
            return;
        }
        int number = number(of, offset);
        if (number >= 0) Fields.writing(of, number);
    }

    private static void after(Object of, long offset) {
        if (of == null || !Trace.several()) return;
        if (of.getClass().isArray()) {
            Order order = ARRAYS.get(of);
            if (order != null) Trace.receive(order);
            return;
        }
        int number = number(of, offset);
        if (number >= 0) Fields.read(of, number);
    }

    private static <R> R both(Object of, long offset, Supplier<R> how) {
        before(of, offset);
        R result = how.get();
        after(of, offset);
        return result;
    }

    private static <R> R look(Object of, long offset, Supplier<R> how) {
        R result = how.get();
        after(of, offset);
        return result;
    }

    public static boolean compareAndSwapObject(Unsafe by, Object of, long at, Object from, Object to) {
        return both(of, at, () -> by.compareAndSwapObject(of, at, from, to));
    }

    public static Object getObjectVolatile(Unsafe by, Object of, long at) { return look(of, at, () -> by.getObjectVolatile(of, at)); }

    public static void putObjectVolatile(Unsafe by, Object of, long at, Object to) {
        before(of, at);
        by.putObjectVolatile(of, at, to);
    }

    public static void putOrderedObject(Unsafe by, Object of, long at, Object to) {
        before(of, at);
        by.putOrderedObject(of, at, to);
    }

    public static Object getAndSetObject(Unsafe by, Object of, long at, Object to) { return both(of, at, () -> by.getAndSetObject(of, at, to)); }

    public static boolean compareAndSwapInt(Unsafe by, Object of, long at, int from, int to) {
        return both(of, at, () -> by.compareAndSwapInt(of, at, from, to));
    }

    public static int getIntVolatile(Unsafe by, Object of, long at) { return look(of, at, () -> by.getIntVolatile(of, at)); }

    public static void putIntVolatile(Unsafe by, Object of, long at, int to) {
        before(of, at);
        by.putIntVolatile(of, at, to);
    }

    public static void putOrderedInt(Unsafe by, Object of, long at, int to) {
        before(of, at);
        by.putOrderedInt(of, at, to);
    }

    public static int getAndSetInt(Unsafe by, Object of, long at, int to) { return both(of, at, () -> by.getAndSetInt(of, at, to)); }

    public static int getAndAddInt(Unsafe by, Object of, long at, int add) { return both(of, at, () -> by.getAndAddInt(of, at, add)); }

    public static boolean compareAndSwapLong(Unsafe by, Object of, long at, long from, long to) {
        return both(of, at, () -> by.compareAndSwapLong(of, at, from, to));
    }

    public static long getLongVolatile(Unsafe by, Object of, long at) { return look(of, at, () -> by.getLongVolatile(of, at)); }

    public static void putLongVolatile(Unsafe by, Object of, long at, long to) {
        before(of, at);
        by.putLongVolatile(of, at, to);
    }

    public static void putOrderedLong(Unsafe by, Object of, long at, long to) {
        before(of, at);
        by.putOrderedLong(of, at, to);
    }

    public static long getAndSetLong(Unsafe by, Object of, long at, long to) { return both(of, at, () -> by.getAndSetLong(of, at, to)); }

    public static long getAndAddLong(Unsafe by, Object of, long at, long add) { return both(of, at, () -> by.getAndAddLong(of, at, add)); }
}
