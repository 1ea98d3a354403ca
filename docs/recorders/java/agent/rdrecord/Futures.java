package rdrecord;

import java.lang.reflect.InvocationTargetException;
import java.lang.reflect.Method;
import java.util.ArrayList;
import java.util.List;
import java.util.concurrent.CompletableFuture;
import java.util.concurrent.CompletionStage;
import java.util.concurrent.CopyOnWriteArrayList;
import java.util.concurrent.Executor;
import java.util.function.BiConsumer;
import java.util.function.BiFunction;
import java.util.function.Consumer;
import java.util.function.Function;
import java.util.function.Supplier;

/**
 * What the rewritten code calls for CompletableFuture: each has a lock of its own. What completes it, by a function or by hand, comes before
 * what finds it complete, and what hands a function in comes before the function.
 */
@SuppressWarnings({"rawtypes", "unchecked"})
public final class Futures {
    private static final List<Method> METHODS = new ArrayList<>();
    private static final Weak<Object, Stage> STAGES = new Weak<>();
    private static final int NAMES = 8192;
    private static final Order[] RING = new Order[NAMES];
    private static int next;

    private Futures() { }

    private static final class Stage {
        final Order order;
        final List<Stage> from = new CopyOnWriteArrayList<>();                      // whose completion comes before its own

        Stage() {
            synchronized (RING) {                                        // names are used again, which orders more
                int i = next++ % NAMES;
                if (RING[i] == null) RING[i] = Trace.order("future");
                order = RING[i];
            }
        }

        void receive(int depth) {
            Trace.receive(order);
            if (depth < 50) for (Stage each : from) each.receive(depth + 1);
        }
    }

    private static Stage stage(Object of) { return STAGES.get(of, o -> new Stage()); }

    /** What finds this one complete. */
    static void found(Object future) {
        Stage stage = STAGES.get(future);
        if (stage != null) stage.receive(0);
    }

    /** The number of a method that takes stages, functions and an executor, and makes a stage; or -1. */
    static synchronized int number(String owner, String name, String desc) {
        try {
            Class<?> type = owner.endsWith("Stage") ? CompletionStage.class : CompletableFuture.class;
            for (Method each : type.getMethods()) {
                if (!each.getName().equals(name) || !descriptor(each).equals(desc)) continue;
                if (!CompletionStage.class.isAssignableFrom(each.getReturnType()) || each.getParameterCount() > 3) return -1;
                for (Class<?> parameter : each.getParameterTypes()) if (parameter.isPrimitive()) return -1;
                METHODS.add(each);
                return METHODS.size() - 1;
            }
        } catch (LinkageError e) { }
        return -1;
    }

    private static String descriptor(Method of) {
        return java.lang.invoke.MethodType.methodType(of.getReturnType(), of.getParameterTypes()).toMethodDescriptorString();
    }

    /** Calls such a method, of a stage or of none, with at most three arguments; what they hand in tells of itself. */
    public static Object call(Object of, Object a, Object b, Object c, int number) throws Throwable {
        Method method;
        synchronized (Futures.class) {
            method = METHODS.get(number);
        }
        Object[] args = new Object[method.getParameterCount()];
        Object[] given = {a, b, c};
        Stage made = new Stage();
        List<Stage> from = made.from;
        if (of != null) from.add(stage(of));
        for (int i = 0; i < args.length; i++) {
            args[i] = given[i];
            if (args[i] instanceof CompletionStage) from.add(stage(args[i]));
            else if (args[i] instanceof Object[] all) for (Object each : all) if (each != null) from.add(stage(each));
        }
        Trace.send(made.order);                                          // the handing in
        for (int i = 0; i < args.length; i++) args[i] = wrap(args[i], made);
        try {
            Object result = method.invoke(of, args);
            if (result != null && result != of) STAGES.put(result, made);
            return result;
        } catch (InvocationTargetException e) {
            throw e.getCause();
        } finally {
            Trace.rest();
        }
    }

    public static Object callStatic(Object a, Object b, Object c, int number) throws Throwable { return call(null, a, b, c, number); }

    private static <R> R in(Stage made, Supplier<R> body) {
        made.receive(0);
        Lane me = Trace.me();
        me.known++;
        try {
            R result = body.get();
            if (result instanceof CompletionStage) made.from.add(stage(result));   // thenCompose
            return result;
        } finally {
            me.known--;
            Trace.send(made.order);
        }
    }

    private static Object wrap(Object arg, Stage made) {
        if (arg == null || arg instanceof CompletionStage || arg instanceof Executor) return arg;
        if (arg instanceof Supplier f) return (Supplier) () -> in(made, f::get);
        if (arg instanceof Function f) return (Function) x -> in(made, () -> f.apply(x));
        if (arg instanceof BiFunction f) return (BiFunction) (x, y) -> in(made, () -> f.apply(x, y));
        if (arg instanceof Consumer f) return (Consumer) x -> in(made, () -> { f.accept(x); return null; });
        if (arg instanceof BiConsumer f) return (BiConsumer) (x, y) -> in(made, () -> { f.accept(x, y); return null; });
        if (arg instanceof Runnable f) return (Runnable) () -> in(made, () -> { f.run(); return null; });
        return arg;
    }

    public static boolean complete(CompletableFuture future, Object value) {
        Trace.send(stage(future).order);
        return future.complete(value);
    }

    public static boolean completeExceptionally(CompletableFuture future, Throwable why) {
        Trace.send(stage(future).order);
        return future.completeExceptionally(why);
    }

    public static boolean cancel(CompletableFuture future, boolean interrupt) {
        Trace.send(stage(future).order);
        return future.cancel(interrupt);
    }

    public static Object join(CompletableFuture future) {
        try {
            return future.join();
        } finally {
            if (future.isDone()) found(future);
        }
    }

    public static Object getNow(CompletableFuture future, Object other) {
        try {
            return future.getNow(other);
        } finally {
            if (future.isDone()) found(future);
        }
    }

    public static boolean isCompletedExceptionally(CompletableFuture future) {
        boolean is = future.isCompletedExceptionally();
        if (is) found(future);
        return is;
    }
}
