package rdrecord;

import java.lang.reflect.Field;
import java.util.Hashtable;
import java.util.Vector;
import java.util.function.Supplier;

/** Containers of Java whose every call takes a monitor: it is told as a lock, since what it orders counts. */
final class Guarded {
    private static final ClassValue<Boolean> IS = new ClassValue<>() {
        @Override protected Boolean computeValue(Class<?> of) {
            boolean wrapped = of.getName().startsWith("java.util.Collections$Synchronized");
            return Hashtable.class.isAssignableFrom(of) || Vector.class.isAssignableFrom(of) || wrapped;
        }
    };
    private static final ClassValue<Field> MUTEX = new ClassValue<>() {
        @Override protected Field computeValue(Class<?> of) {
            for (Class<?> c = of; c != null; c = c.getSuperclass()) {
                try {
                    Field field = c.getDeclaredField("mutex");
                    field.setAccessible(true);
                    return field;
                } catch (ReflectiveOperationException | RuntimeException e) { }  // it has none, or hides it
            }
            return null;
        }
    };

    private Guarded() { }

    static boolean is(Object container) { return container != null && IS.get(container.getClass()); }

    private static Object mutex(Object container) {
        Field field = container instanceof Hashtable || container instanceof Vector ? null : MUTEX.get(container.getClass());
        try {
            return field == null ? container : field.get(container);
        } catch (ReflectiveOperationException e) {
            return container;
        }
    }

    /** A call that holds the monitor, as the container does itself. */
    static <R> R run(Object container, Supplier<R> call) {
        if (!Trace.several()) return call.get();
        Object mutex = mutex(container);
        Order order = Threads.monitor(mutex);
        synchronized (mutex) {
            Trace.acquired(order);
            try {
                return call.get();
            } finally {
                Trace.releasing(order);
            }
        }
    }
}
