package rdrecord;

import java.util.concurrent.atomic.AtomicBoolean;
import java.util.concurrent.atomic.AtomicInteger;
import java.util.concurrent.atomic.AtomicIntegerArray;
import java.util.concurrent.atomic.AtomicIntegerFieldUpdater;
import java.util.concurrent.atomic.AtomicLong;
import java.util.concurrent.atomic.AtomicLongArray;
import java.util.concurrent.atomic.AtomicLongFieldUpdater;
import java.util.concurrent.atomic.AtomicMarkableReference;
import java.util.concurrent.atomic.AtomicReference;
import java.util.concurrent.atomic.AtomicReferenceArray;
import java.util.concurrent.atomic.AtomicReferenceFieldUpdater;
import java.util.concurrent.atomic.AtomicStampedReference;
import java.util.concurrent.atomic.LongAdder;
import java.util.function.*;

/**
 * What the rewritten code calls for atomic variables: the last argument is the place, or less than nothing where the result isn't used. Each
 * orders, as a lock named for it: who stores comes before who finds what was stored. Where the file of objects names the field that holds
 * it, it is a register or a counter instead, and orders nothing.
 */
@SuppressWarnings({"rawtypes", "unchecked"})
public final class Atomics {
    private static final Weak<Object, Order> ORDERS = new Weak<>();

    private Atomics() { }

    private static Order order(Object of) { return ORDERS.get(of, o -> Trace.order(Values.label(o.getClass()))); }

    private static Things.Thing thing(Object of) { return Asked.fields() ? Things.of(of) : null; }

    private static void send(Object of) { if (Trace.several()) Trace.send(order(of)); }

    private static void receive(Object of) {
        Order order = Trace.several() ? ORDERS.get(of) : null;
        if (order != null) Trace.receive(order);
    }

    /** What a variable holds when it becomes an object of the trace. */
    static void first(Object it, Things.Thing t) {
        Object value = it instanceof AtomicInteger i ? (Object) i.get() : it instanceof AtomicLong l ? (Object) l.get()
            : it instanceof AtomicBoolean b ? (Object) b.get() : it instanceof AtomicReference r ? r.get()
            : it instanceof LongAdder a ? (Object) a.sum() : null;
        if (value == null) return;
        if (t.kind.equals("counter")) {
            if (((Number) value).longValue() != 0) t.call(0, "add " + value + " -> nil");
        } else if (t.kind.equals("register")) {
            t.call(0, "write " + Values.content(value) + " -> nil");
        }
    }

    private static Object read(Object of, int place, Supplier<Object> how) {
        Things.Thing t = thing(of);
        if (t == null) {
            Object value = how.get();
            receive(of);
            return value;
        }
        boolean one = t.begin();
        try {
            Object value = how.get();
            t.call(Math.abs(place), (t.kind.equals("counter") ? "get -> " : "read -> ") + Values.content(value));
            return value;
        } finally {
            t.end(one);
        }
    }

    private static void write(Object of, Object value, int place, Runnable how) {
        Things.Thing t = thing(of);
        if (t == null) {
            send(of);
            how.run();
            Trace.rest();
            return;
        }
        boolean one = t.begin();
        try {
            how.run();
            if (t.kind.equals("counter")) t.drop("an assignment, which a counter hasn't");
            else t.call(Math.abs(place), "write " + Values.content(value) + " -> nil");
        } finally {
            t.end(one);
        }
    }

    /** A step from an old value to a new one: both are the answer. */
    private static Object[] change(Object of, int place, Supplier<Object> get, BiPredicate<Object, Object> set, UnaryOperator<Object> how) {
        Things.Thing t = thing(of);
        if (t == null) send(of);
        boolean one = t != null && t.begin();
        Object old;
        Object next;
        try {
            do {
                old = get.get();
                next = how.apply(old);
            } while (!set.test(old, next));
            if (t != null) tell(t, place, old, next);
        } finally {
            if (t != null) t.end(one);
        }
        if (t == null) {
            receive(of);
            Trace.rest();
        }
        return new Object[] {old, next};
    }

    private static void tell(Things.Thing t, int place, Object old, Object next) {
        if (t.kind.equals("register")) {
            t.call(Math.abs(place), "swap " + Values.content(next) + " -> " + Values.content(old));
            return;
        }
        String add = "add " + (((Number) next).longValue() - ((Number) old).longValue()) + " -> nil";
        if (place < 0) t.call(-place, add);
        else t.call(place, add, "get -> " + next);
    }

    private static boolean exchange(Object of, int place, Supplier<Object> get, BooleanSupplier how, Object next) {
        Things.Thing t = thing(of);
        if (t == null) {
            send(of);
            boolean done = how.getAsBoolean();
            receive(of);
            Trace.rest();
            return done;
        }
        boolean one = t.begin();
        try {
            Object old = get.get();
            boolean done = how.getAsBoolean();
            if (done) tell(t, place, old, next);
            else t.call(Math.abs(place), (t.kind.equals("counter") ? "get -> " : "read -> ") + Values.content(get.get()));
            return done;
        } finally {
            t.end(one);
        }
    }

    private static int step(AtomicInteger of, int place, boolean after, IntUnaryOperator how) {
        Object[] both = change(of, place, of::get, (old, next) -> of.compareAndSet((int) old, (int) next), old -> how.applyAsInt((int) old));
        return (int) both[after ? 1 : 0];
    }
    public static int get(AtomicInteger of, int place) { return (int) read(of, place, of::get); }
    public static int getPlain(AtomicInteger of, int place) { return (int) read(of, place, of::getPlain); }
    public static int getAcquire(AtomicInteger of, int place) { return (int) read(of, place, of::getAcquire); }
    public static int getOpaque(AtomicInteger of, int place) { return (int) read(of, place, of::getOpaque); }
    public static int intValue(AtomicInteger of, int place) { return (int) get(of, place); }
    public static long longValue(AtomicInteger of, int place) { return (long) get(of, place); }
    public static void set(AtomicInteger of, int to, int place) { write(of, to, place, () -> of.set(to)); }
    public static void lazySet(AtomicInteger of, int to, int place) { write(of, to, place, () -> of.lazySet(to)); }
    public static void setRelease(AtomicInteger of, int to, int place) { write(of, to, place, () -> of.setRelease(to)); }
    public static void setPlain(AtomicInteger of, int to, int place) { write(of, to, place, () -> of.setPlain(to)); }
    public static void setOpaque(AtomicInteger of, int to, int place) { write(of, to, place, () -> of.setOpaque(to)); }
    public static int getAndSet(AtomicInteger of, int to, int place) { return step(of, place, false, old -> to); }
    public static int getAndIncrement(AtomicInteger of, int place) { return step(of, place, false, old -> old + 1); }
    public static int getAndDecrement(AtomicInteger of, int place) { return step(of, place, false, old -> old - 1); }
    public static int incrementAndGet(AtomicInteger of, int place) { return step(of, place, true, old -> old + 1); }
    public static int decrementAndGet(AtomicInteger of, int place) { return step(of, place, true, old -> old - 1); }
    public static int getAndAdd(AtomicInteger of, int by, int place) { return step(of, place, false, old -> old + by); }
    public static int addAndGet(AtomicInteger of, int by, int place) { return step(of, place, true, old -> old + by); }
    public static int getAndUpdate(AtomicInteger of, IntUnaryOperator how, int place) { return step(of, place, false, how); }
    public static int updateAndGet(AtomicInteger of, IntUnaryOperator how, int place) { return step(of, place, true, how); }
    public static int getAndAccumulate(AtomicInteger of, int by, IntBinaryOperator how, int place) {
        return step(of, place, false, old -> how.applyAsInt(old, by));
    }

    public static int accumulateAndGet(AtomicInteger of, int by, IntBinaryOperator how, int place) {
        return step(of, place, true, old -> how.applyAsInt(old, by));
    }

    public static boolean compareAndSet(AtomicInteger of, int from, int to, int place) {
        return exchange(of, place, of::get, () -> of.compareAndSet(from, to), to);
    }

    public static boolean weakCompareAndSet(AtomicInteger of, int from, int to, int place) {
        return exchange(of, place, of::get, () -> of.compareAndSet(from, to), to);
    }

    public static boolean weakCompareAndSetPlain(AtomicInteger of, int from, int to, int place) {
        return exchange(of, place, of::get, () -> of.weakCompareAndSetPlain(from, to), to);
    }

    public static boolean weakCompareAndSetVolatile(AtomicInteger of, int from, int to, int place) {
        return exchange(of, place, of::get, () -> of.weakCompareAndSetVolatile(from, to), to);
    }

    public static boolean weakCompareAndSetAcquire(AtomicInteger of, int from, int to, int place) {
        return exchange(of, place, of::get, () -> of.weakCompareAndSetAcquire(from, to), to);
    }

    public static boolean weakCompareAndSetRelease(AtomicInteger of, int from, int to, int place) {
        return exchange(of, place, of::get, () -> of.weakCompareAndSetRelease(from, to), to);
    }

    private static long step(AtomicLong of, int place, boolean after, LongUnaryOperator how) {
        Object[] both = change(of, place, of::get, (old, next) -> of.compareAndSet((long) old, (long) next), old -> how.applyAsLong((long) old));
        return (long) both[after ? 1 : 0];
    }
    public static long get(AtomicLong of, int place) { return (long) read(of, place, of::get); }
    public static long getPlain(AtomicLong of, int place) { return (long) read(of, place, of::getPlain); }
    public static long getAcquire(AtomicLong of, int place) { return (long) read(of, place, of::getAcquire); }
    public static long getOpaque(AtomicLong of, int place) { return (long) read(of, place, of::getOpaque); }
    public static int intValue(AtomicLong of, int place) { return (int) get(of, place); }
    public static long longValue(AtomicLong of, int place) { return (long) get(of, place); }
    public static void set(AtomicLong of, long to, int place) { write(of, to, place, () -> of.set(to)); }
    public static void lazySet(AtomicLong of, long to, int place) { write(of, to, place, () -> of.lazySet(to)); }
    public static void setRelease(AtomicLong of, long to, int place) { write(of, to, place, () -> of.setRelease(to)); }
    public static void setPlain(AtomicLong of, long to, int place) { write(of, to, place, () -> of.setPlain(to)); }
    public static void setOpaque(AtomicLong of, long to, int place) { write(of, to, place, () -> of.setOpaque(to)); }
    public static long getAndSet(AtomicLong of, long to, int place) { return step(of, place, false, old -> to); }
    public static long getAndIncrement(AtomicLong of, int place) { return step(of, place, false, old -> old + 1); }
    public static long getAndDecrement(AtomicLong of, int place) { return step(of, place, false, old -> old - 1); }
    public static long incrementAndGet(AtomicLong of, int place) { return step(of, place, true, old -> old + 1); }
    public static long decrementAndGet(AtomicLong of, int place) { return step(of, place, true, old -> old - 1); }
    public static long getAndAdd(AtomicLong of, long by, int place) { return step(of, place, false, old -> old + by); }
    public static long addAndGet(AtomicLong of, long by, int place) { return step(of, place, true, old -> old + by); }
    public static long getAndUpdate(AtomicLong of, LongUnaryOperator how, int place) { return step(of, place, false, how); }
    public static long updateAndGet(AtomicLong of, LongUnaryOperator how, int place) { return step(of, place, true, how); }
    public static long getAndAccumulate(AtomicLong of, long by, LongBinaryOperator how, int place) {
        return step(of, place, false, old -> how.applyAsLong(old, by));
    }

    public static long accumulateAndGet(AtomicLong of, long by, LongBinaryOperator how, int place) {
        return step(of, place, true, old -> how.applyAsLong(old, by));
    }

    public static boolean compareAndSet(AtomicLong of, long from, long to, int place) {
        return exchange(of, place, of::get, () -> of.compareAndSet(from, to), to);
    }

    public static boolean weakCompareAndSet(AtomicLong of, long from, long to, int place) {
        return exchange(of, place, of::get, () -> of.compareAndSet(from, to), to);
    }

    public static boolean weakCompareAndSetPlain(AtomicLong of, long from, long to, int place) {
        return exchange(of, place, of::get, () -> of.weakCompareAndSetPlain(from, to), to);
    }

    public static boolean weakCompareAndSetVolatile(AtomicLong of, long from, long to, int place) {
        return exchange(of, place, of::get, () -> of.weakCompareAndSetVolatile(from, to), to);
    }

    public static boolean weakCompareAndSetAcquire(AtomicLong of, long from, long to, int place) {
        return exchange(of, place, of::get, () -> of.weakCompareAndSetAcquire(from, to), to);
    }

    public static boolean weakCompareAndSetRelease(AtomicLong of, long from, long to, int place) {
        return exchange(of, place, of::get, () -> of.weakCompareAndSetRelease(from, to), to);
    }

    public static boolean get(AtomicBoolean of, int place) { return (boolean) read(of, place, of::get); }
    public static boolean getPlain(AtomicBoolean of, int place) { return (boolean) read(of, place, of::getPlain); }
    public static boolean getAcquire(AtomicBoolean of, int place) { return (boolean) read(of, place, of::getAcquire); }
    public static boolean getOpaque(AtomicBoolean of, int place) { return (boolean) read(of, place, of::getOpaque); }
    public static void set(AtomicBoolean of, boolean to, int place) { write(of, to, place, () -> of.set(to)); }
    public static void lazySet(AtomicBoolean of, boolean to, int place) { write(of, to, place, () -> of.lazySet(to)); }
    public static void setRelease(AtomicBoolean of, boolean to, int place) { write(of, to, place, () -> of.setRelease(to)); }
    public static void setPlain(AtomicBoolean of, boolean to, int place) { write(of, to, place, () -> of.setPlain(to)); }
    public static void setOpaque(AtomicBoolean of, boolean to, int place) { write(of, to, place, () -> of.setOpaque(to)); }
    public static boolean compareAndSet(AtomicBoolean of, boolean from, boolean to, int place) {
        return exchange(of, place, of::get, () -> of.compareAndSet(from, to), to);
    }

    public static boolean weakCompareAndSet(AtomicBoolean of, boolean from, boolean to, int place) {
        return exchange(of, place, of::get, () -> of.compareAndSet(from, to), to);
    }

    public static boolean weakCompareAndSetPlain(AtomicBoolean of, boolean from, boolean to, int place) {
        return exchange(of, place, of::get, () -> of.weakCompareAndSetPlain(from, to), to);
    }

    public static boolean weakCompareAndSetVolatile(AtomicBoolean of, boolean from, boolean to, int place) {
        return exchange(of, place, of::get, () -> of.weakCompareAndSetVolatile(from, to), to);
    }

    public static boolean weakCompareAndSetAcquire(AtomicBoolean of, boolean from, boolean to, int place) {
        return exchange(of, place, of::get, () -> of.weakCompareAndSetAcquire(from, to), to);
    }

    public static boolean weakCompareAndSetRelease(AtomicBoolean of, boolean from, boolean to, int place) {
        return exchange(of, place, of::get, () -> of.weakCompareAndSetRelease(from, to), to);
    }

    public static Object get(AtomicReference of, int place) { return read(of, place, of::get); }
    public static Object getPlain(AtomicReference of, int place) { return read(of, place, of::getPlain); }
    public static Object getAcquire(AtomicReference of, int place) { return read(of, place, of::getAcquire); }
    public static Object getOpaque(AtomicReference of, int place) { return read(of, place, of::getOpaque); }
    public static void set(AtomicReference of, Object to, int place) { write(of, to, place, () -> of.set(to)); }
    public static void lazySet(AtomicReference of, Object to, int place) { write(of, to, place, () -> of.lazySet(to)); }
    public static void setRelease(AtomicReference of, Object to, int place) { write(of, to, place, () -> of.setRelease(to)); }
    public static void setPlain(AtomicReference of, Object to, int place) { write(of, to, place, () -> of.setPlain(to)); }
    public static void setOpaque(AtomicReference of, Object to, int place) { write(of, to, place, () -> of.setOpaque(to)); }
    public static boolean compareAndSet(AtomicReference of, Object from, Object to, int place) {
        return exchange(of, place, of::get, () -> of.compareAndSet(from, to), to);
    }

    public static boolean weakCompareAndSet(AtomicReference of, Object from, Object to, int place) {
        return exchange(of, place, of::get, () -> of.compareAndSet(from, to), to);
    }

    public static boolean weakCompareAndSetPlain(AtomicReference of, Object from, Object to, int place) {
        return exchange(of, place, of::get, () -> of.weakCompareAndSetPlain(from, to), to);
    }

    public static boolean weakCompareAndSetVolatile(AtomicReference of, Object from, Object to, int place) {
        return exchange(of, place, of::get, () -> of.weakCompareAndSetVolatile(from, to), to);
    }

    public static boolean weakCompareAndSetAcquire(AtomicReference of, Object from, Object to, int place) {
        return exchange(of, place, of::get, () -> of.weakCompareAndSetAcquire(from, to), to);
    }

    public static boolean weakCompareAndSetRelease(AtomicReference of, Object from, Object to, int place) {
        return exchange(of, place, of::get, () -> of.weakCompareAndSetRelease(from, to), to);
    }

    public static boolean getAndSet(AtomicBoolean of, boolean to, int place) {
        return (boolean) change(of, place, of::get, (old, next) -> of.compareAndSet((boolean) old, (boolean) next), old -> to)[0];
    }

    public static Object getAndSet(AtomicReference of, Object to, int place) { return step(of, place, false, old -> to); }

    private static Object step(AtomicReference of, int place, boolean after, UnaryOperator how) {
        return change(of, place, of::get, of::compareAndSet, how)[after ? 1 : 0];
    }

    public static Object getAndUpdate(AtomicReference of, UnaryOperator how, int place) { return step(of, place, false, how); }

    public static Object updateAndGet(AtomicReference of, UnaryOperator how, int place) { return step(of, place, true, how); }

    public static Object getAndAccumulate(AtomicReference of, Object by, BinaryOperator how, int place) {
        return step(of, place, false, old -> how.apply(old, by));
    }

    public static Object accumulateAndGet(AtomicReference of, Object by, BinaryOperator how, int place) {
        return step(of, place, true, old -> how.apply(old, by));
    }

    // A LongAdder promises no order.

    public static void add(LongAdder of, long by, int place) {
        Things.Thing t = thing(of);
        boolean one = t != null && t.begin();
        of.add(by);
        if (t == null) return;
        t.call(Math.abs(place), "add " + by + " -> nil");
        t.end(one);
    }

    public static void increment(LongAdder of, int place) { add(of, 1, place); }

    public static void decrement(LongAdder of, int place) { add(of, -1, place); }

    public static long sum(LongAdder of, int place) {
        Things.Thing t = thing(of);
        return t == null ? of.sum() : (long) read(of, place, of::sum);
    }

    public static long longValue(LongAdder of, int place) { return sum(of, place); }

    public static int intValue(LongAdder of, int place) { return (int) sum(of, place); }

    // Slots of arrays, and fields by their updaters: one lock for all slots of an array, and for each field its own.

    private static <R> R both(Object of, Supplier<R> how) {
        send(of);
        R result = how.get();
        receive(of);
        return result;
    }

    private static <R> R look(Object of, Supplier<R> how) {
        R result = how.get();
        receive(of);
        return result;
    }
    public static int get(AtomicIntegerArray of, int i, int place) { return look(of, () -> of.get(i)); }
    public static int getAcquire(AtomicIntegerArray of, int i, int place) { return look(of, () -> of.getAcquire(i)); }
    public static void set(AtomicIntegerArray of, int i, int to, int place) { send(of); of.set(i, to); }
    public static void lazySet(AtomicIntegerArray of, int i, int to, int place) { send(of); of.lazySet(i, to); }
    public static void setRelease(AtomicIntegerArray of, int i, int to, int place) { send(of); of.setRelease(i, to); }
    public static int getAndSet(AtomicIntegerArray of, int i, int to, int place) { return both(of, () -> of.getAndSet(i, to)); }
    public static boolean compareAndSet(AtomicIntegerArray of, int i, int from, int to, int place) {
        return both(of, () -> of.compareAndSet(i, from, to));
    }

    public static int getAndIncrement(AtomicIntegerArray of, int i, int place) { return both(of, () -> of.getAndIncrement(i)); }
    public static int getAndDecrement(AtomicIntegerArray of, int i, int place) { return both(of, () -> of.getAndDecrement(i)); }
    public static int incrementAndGet(AtomicIntegerArray of, int i, int place) { return both(of, () -> of.incrementAndGet(i)); }
    public static int decrementAndGet(AtomicIntegerArray of, int i, int place) { return both(of, () -> of.decrementAndGet(i)); }
    public static int getAndAdd(AtomicIntegerArray of, int i, int by, int place) { return both(of, () -> of.getAndAdd(i, by)); }
    public static int addAndGet(AtomicIntegerArray of, int i, int by, int place) { return both(of, () -> of.addAndGet(i, by)); }
    public static long get(AtomicLongArray of, int i, int place) { return look(of, () -> of.get(i)); }
    public static long getAcquire(AtomicLongArray of, int i, int place) { return look(of, () -> of.getAcquire(i)); }
    public static void set(AtomicLongArray of, int i, long to, int place) { send(of); of.set(i, to); }
    public static void lazySet(AtomicLongArray of, int i, long to, int place) { send(of); of.lazySet(i, to); }
    public static void setRelease(AtomicLongArray of, int i, long to, int place) { send(of); of.setRelease(i, to); }
    public static long getAndSet(AtomicLongArray of, int i, long to, int place) { return both(of, () -> of.getAndSet(i, to)); }
    public static boolean compareAndSet(AtomicLongArray of, int i, long from, long to, int place) {
        return both(of, () -> of.compareAndSet(i, from, to));
    }

    public static long getAndIncrement(AtomicLongArray of, int i, int place) { return both(of, () -> of.getAndIncrement(i)); }
    public static long getAndDecrement(AtomicLongArray of, int i, int place) { return both(of, () -> of.getAndDecrement(i)); }
    public static long incrementAndGet(AtomicLongArray of, int i, int place) { return both(of, () -> of.incrementAndGet(i)); }
    public static long decrementAndGet(AtomicLongArray of, int i, int place) { return both(of, () -> of.decrementAndGet(i)); }
    public static long getAndAdd(AtomicLongArray of, int i, long by, int place) { return both(of, () -> of.getAndAdd(i, by)); }
    public static long addAndGet(AtomicLongArray of, int i, long by, int place) { return both(of, () -> of.addAndGet(i, by)); }
    public static Object get(AtomicReferenceArray of, int i, int place) { return look(of, () -> of.get(i)); }
    public static Object getAcquire(AtomicReferenceArray of, int i, int place) { return look(of, () -> of.getAcquire(i)); }
    public static void set(AtomicReferenceArray of, int i, Object to, int place) { send(of); of.set(i, to); }
    public static void lazySet(AtomicReferenceArray of, int i, Object to, int place) { send(of); of.lazySet(i, to); }
    public static void setRelease(AtomicReferenceArray of, int i, Object to, int place) { send(of); of.setRelease(i, to); }
    public static Object getAndSet(AtomicReferenceArray of, int i, Object to, int place) { return both(of, () -> of.getAndSet(i, to)); }
    public static boolean compareAndSet(AtomicReferenceArray of, int i, Object from, Object to, int place) {
        return both(of, () -> of.compareAndSet(i, from, to));
    }

    private static <R> R onField(Object updater, Object of, Supplier<R> how) {
        Fields.before(updater, of);
        R result = how.get();
        Fields.after(updater, of);
        return result;
    }
    public static int get(AtomicIntegerFieldUpdater by, Object of, int place) {
        int value = (int) by.get(of);
        Fields.after(by, of);
        return value;
    }

    public static void set(AtomicIntegerFieldUpdater by, Object of, int to, int place) { Fields.before(by, of); by.set(of, to); }
    public static void lazySet(AtomicIntegerFieldUpdater by, Object of, int to, int place) { Fields.before(by, of); by.lazySet(of, to); }
    public static int getAndSet(AtomicIntegerFieldUpdater by, Object of, int to, int place) {
        return (int) onField(by, of, () -> by.getAndSet(of, to));
    }

    public static boolean compareAndSet(AtomicIntegerFieldUpdater by, Object of, int from, int to, int place) {
        return onField(by, of, () -> by.compareAndSet(of, from, to));
    }

    public static boolean weakCompareAndSet(AtomicIntegerFieldUpdater by, Object of, int from, int to, int place) {
        return onField(by, of, () -> by.weakCompareAndSet(of, from, to));
    }

    public static int getAndIncrement(AtomicIntegerFieldUpdater by, Object of, int place) {
        return (int) onField(by, of, () -> by.getAndIncrement(of));
    }

    public static int getAndDecrement(AtomicIntegerFieldUpdater by, Object of, int place) {
        return (int) onField(by, of, () -> by.getAndDecrement(of));
    }

    public static int incrementAndGet(AtomicIntegerFieldUpdater by, Object of, int place) {
        return (int) onField(by, of, () -> by.incrementAndGet(of));
    }

    public static int decrementAndGet(AtomicIntegerFieldUpdater by, Object of, int place) {
        return (int) onField(by, of, () -> by.decrementAndGet(of));
    }

    public static int getAndAdd(AtomicIntegerFieldUpdater by, Object of, int add, int place) {
        return (int) onField(by, of, () -> by.getAndAdd(of, add));
    }

    public static int addAndGet(AtomicIntegerFieldUpdater by, Object of, int add, int place) {
        return (int) onField(by, of, () -> by.addAndGet(of, add));
    }

    public static long get(AtomicLongFieldUpdater by, Object of, int place) {
        long value = (long) by.get(of);
        Fields.after(by, of);
        return value;
    }

    public static void set(AtomicLongFieldUpdater by, Object of, long to, int place) { Fields.before(by, of); by.set(of, to); }
    public static void lazySet(AtomicLongFieldUpdater by, Object of, long to, int place) { Fields.before(by, of); by.lazySet(of, to); }
    public static long getAndSet(AtomicLongFieldUpdater by, Object of, long to, int place) {
        return (long) onField(by, of, () -> by.getAndSet(of, to));
    }

    public static boolean compareAndSet(AtomicLongFieldUpdater by, Object of, long from, long to, int place) {
        return onField(by, of, () -> by.compareAndSet(of, from, to));
    }

    public static boolean weakCompareAndSet(AtomicLongFieldUpdater by, Object of, long from, long to, int place) {
        return onField(by, of, () -> by.weakCompareAndSet(of, from, to));
    }

    public static long getAndIncrement(AtomicLongFieldUpdater by, Object of, int place) {
        return (long) onField(by, of, () -> by.getAndIncrement(of));
    }

    public static long getAndDecrement(AtomicLongFieldUpdater by, Object of, int place) {
        return (long) onField(by, of, () -> by.getAndDecrement(of));
    }

    public static long incrementAndGet(AtomicLongFieldUpdater by, Object of, int place) {
        return (long) onField(by, of, () -> by.incrementAndGet(of));
    }

    public static long decrementAndGet(AtomicLongFieldUpdater by, Object of, int place) {
        return (long) onField(by, of, () -> by.decrementAndGet(of));
    }

    public static long getAndAdd(AtomicLongFieldUpdater by, Object of, long add, int place) {
        return (long) onField(by, of, () -> by.getAndAdd(of, add));
    }

    public static long addAndGet(AtomicLongFieldUpdater by, Object of, long add, int place) {
        return (long) onField(by, of, () -> by.addAndGet(of, add));
    }

    public static Object get(AtomicReferenceFieldUpdater by, Object of, int place) {
        Object value = by.get(of);
        Fields.after(by, of);
        return value;
    }

    public static void set(AtomicReferenceFieldUpdater by, Object of, Object to, int place) { Fields.before(by, of); by.set(of, to); }
    public static void lazySet(AtomicReferenceFieldUpdater by, Object of, Object to, int place) {
        Fields.before(by, of);
        by.lazySet(of, to);
    }

    public static Object getAndSet(AtomicReferenceFieldUpdater by, Object of, Object to, int place) {
        return onField(by, of, () -> by.getAndSet(of, to));
    }

    public static boolean compareAndSet(AtomicReferenceFieldUpdater by, Object of, Object from, Object to, int place) {
        return onField(by, of, () -> by.compareAndSet(of, from, to));
    }

    public static boolean weakCompareAndSet(AtomicReferenceFieldUpdater by, Object of, Object from, Object to, int place) {
        return onField(by, of, () -> by.weakCompareAndSet(of, from, to));
    }

    public static Object get(AtomicStampedReference of, int[] stamp, int place) { return look(of, () -> of.get(stamp)); }

    public static Object getReference(AtomicStampedReference of, int place) { return look(of, of::getReference); }

    public static boolean compareAndSet(AtomicStampedReference of, Object from, Object to, int was, int stamp, int place) {
        return both(of, () -> of.compareAndSet(from, to, was, stamp));
    }

    public static Object get(AtomicMarkableReference of, boolean[] mark, int place) { return look(of, () -> of.get(mark)); }

    public static Object getReference(AtomicMarkableReference of, int place) { return look(of, of::getReference); }

    public static boolean compareAndSet(AtomicMarkableReference of, Object from, Object to, boolean was, boolean mark, int place) {
        return both(of, () -> of.compareAndSet(from, to, was, mark));
    }
}
