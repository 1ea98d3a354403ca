package rdrecord;

import java.util.ArrayList;
import java.util.Collection;
import java.util.Date;
import java.util.List;
import java.util.Map;
import java.util.Set;
import java.util.Timer;
import java.util.TimerTask;
import java.util.concurrent.Callable;
import java.util.concurrent.CompletableFuture;
import java.util.concurrent.CompletionService;
import java.util.concurrent.ConcurrentHashMap;
import java.util.concurrent.ExecutionException;
import java.util.concurrent.Executor;
import java.util.concurrent.ExecutorService;
import java.util.concurrent.ForkJoinPool;
import java.util.concurrent.ForkJoinTask;
import java.util.concurrent.Future;
import java.util.concurrent.FutureTask;
import java.util.concurrent.ScheduledExecutorService;
import java.util.concurrent.ScheduledFuture;
import java.util.concurrent.TimeUnit;
import java.util.concurrent.TimeoutException;

/**
 * What the rewritten code calls for tasks: what was done before a task is handed in comes before the task, and the task before what follows
 * the wait for its result or for the pool's end. A task of a class of the program tells its beginning and its end itself, since pools may ask
 * for its class or its identity; a lambda is wrapped.
 */
@SuppressWarnings({"rawtypes", "unchecked"})
public final class Tasks {
    private static final boolean THREADS = "yes".equals(System.getenv("RDRECORD_TASKS"));
    private static final int NAMES = 8192;                               // of locks for tasks, before they are used again
    private static final Order[] RING = new Order[NAMES];
    private static int next;
    private static final Weak<Object, Task> OF = new Weak<>();           // by future
    private static final Weak<Object, Pending> PENDING = new Weak<>();   // by what is run
    private static final Weak<Object, Ends> ENDS = new Weak<>();         // by pool
    private static final Set<String> TELLING = ConcurrentHashMap.newKeySet();
    private static final ClassValue<Boolean> TELLS = new ClassValue<>() {
        @Override protected Boolean computeValue(Class<?> of) {
            for (Class<?> c = of; c != null && c.getClassLoader() != null; c = c.getSuperclass()) {
                if (TELLING.contains(c.getName())) return true;
            }
            return false;
        }
    };

    private Tasks() { }

    /** A class was rewritten whose tasks tell of themselves. */
    static void telling(String name) { TELLING.add(name.replace('/', '.')); }

    /** The ends of the tasks of one pool: a lock for each worker, so that workers aren't ordered among each other. */
    private static final class Ends {
        private final Map<Lane, Order> orders = new ConcurrentHashMap<>();
        private final List<Lane> tasks = new ArrayList<>();

        void send() { Trace.send(orders.computeIfAbsent(Trace.me(), lane -> Trace.order("worker"))); }

        synchronized void add(Lane task) { tasks.add(task); }

        void receive() {
            orders.values().forEach(Trace::receive);
            List<Lane> all;
            synchronized (this) {
                all = new ArrayList<>(tasks);
                tasks.clear();
            }
            all.forEach(Trace::join);
        }
    }

    /** One handing in of a task. */
    static final class Task {
        final Order order;
        final Lane lane;                                                 // where a task is a thread
        private final Ends ends;
        private final boolean awaited;

        Task(Object pool, boolean awaited) {
            this.awaited = awaited;
            ends = pool == null ? null : ENDS.get(pool, p -> new Ends());
            lane = THREADS && pool != null ? Trace.forked("task") : null;
            order = lane == null ? name() : null;
            if (order != null) Trace.send(order);
            else if (ends != null) ends.add(lane);
        }

        private static Order name() {
            synchronized (RING) {
                int i = next++ % NAMES;
                if (RING[i] == null) RING[i] = Trace.order("task");
                return RING[i];
            }
        }

        /** What the thread was before. */
        Lane begin() {
            if (lane != null) return Trace.be(lane);
            Trace.receive(order);
            Trace.me().known++;
            return null;
        }

        void end(Lane before) {
            if (lane != null) {
                Trace.be(before);
                return;
            }
            if (awaited) Trace.send(order);
            if (ends != null) ends.send();
            Trace.me().known--;
        }

        /** Its result is there. */
        void ended() {
            if (lane != null) Trace.join(lane);
            else Trace.receive(order);
        }
    }

    /** The handings in of one object, which may be several. */
    private static final class Pending {
        final List<Task> tasks = new ArrayList<>();
        int count;
        boolean forever;
    }

    private static void pend(Object run, Task task, boolean forever) {
        Pending all = PENDING.get(run, r -> new Pending());
        synchronized (all) {
            all.tasks.add(task);
            all.count++;
            all.forever |= forever;
        }
    }

    private static final ThreadLocal<List<Object[]>> RUNNING = ThreadLocal.withInitial(ArrayList::new);

    /** At the beginning of a task's body. */
    public static void begin(Object run) {
        Pending all = PENDING.get(run);
        if (all == null) return;
        List<Task> tasks;
        synchronized (all) {
            if (all.count == 0) return;
            tasks = new ArrayList<>(all.tasks);
        }
        Lane before = null;
        for (Task task : tasks) {
            Lane was = task.begin();
            if (before == null) before = was;
        }
        RUNNING.get().add(new Object[] {run, all, tasks, before});
    }

    /** At its end. */
    public static void end(Object run) {
        List<Object[]> running = RUNNING.get();
        if (running.isEmpty() || running.get(running.size() - 1)[0] != run) return;
        Object[] last = running.remove(running.size() - 1);
        Pending all = (Pending) last[1];
        for (Task task : (List<Task>) last[2]) task.end((Lane) last[3]);
        synchronized (all) {
            if (!all.forever && --all.count <= 0) {
                all.count = 0;
                all.tasks.clear();
            }
        }
    }

    private static Runnable wrap(Runnable run, Task task, boolean forever) {
        if (run == null || run instanceof FutureTask) return run;
        if (TELLS.get(run.getClass())) {
            pend(run, task, forever);
            return run;
        }
        return () -> {
            Lane before = task.begin();
            try {
                run.run();
            } finally {
                task.end(before);
            }
        };
    }

    private static Callable wrap(Callable call, Task task) {
        if (call == null) return null;
        if (TELLS.get(call.getClass())) {
            pend(call, task, false);
            return call;
        }
        return () -> {
            Lane before = task.begin();
            try {
                return call.call();
            } finally {
                task.end(before);
            }
        };
    }

    private static <F> F bind(F future, Task task) {
        if (future != null) OF.put(future, task);
        return future;
    }

    private static final ClassValue<Boolean> OWN = new ClassValue<>() {  // the program's own way of running tasks
        @Override protected Boolean computeValue(Class<?> of) {
            try {
                return of.getMethod("execute", Runnable.class).getDeclaringClass().getClassLoader() != null;
            } catch (ReflectiveOperationException | LinkageError e) {
                return of.getClassLoader() != null;
            }
        }
    };

    public static void execute(Executor pool, Runnable run) {
        pool.execute(pool == null || OWN.get(pool.getClass()) ? run : handed(pool, run));
        Trace.rest();
    }

    private static Runnable handed(Object pool, Runnable run) {
        Task known = run instanceof FutureTask ? OF.get(run) : null;
        if (known != null) {
            if (known.order != null) Trace.send(known.order);
            return run;
        }
        return run instanceof FutureTask || run == null ? run : wrap(run, new Task(pool, false), false);
    }

    /** The argument of super.execute. */
    public static Runnable handed(Runnable run) { return handed(null, run); }

    public static Future submit(ExecutorService pool, Runnable run) {
        Task task = new Task(pool, true);
        return bind(pool.submit(wrap(run, task, false)), task);
    }

    public static Future submit(ExecutorService pool, Runnable run, Object result) {
        Task task = new Task(pool, true);
        return bind(pool.submit(wrap(run, task, false), result), task);
    }

    public static Future submit(ExecutorService pool, Callable call) {
        Task task = new Task(pool, true);
        return bind(pool.submit(wrap(call, task)), task);
    }

    public static Future submit(CompletionService pool, Callable call) {
        Task task = new Task(pool, true);
        return bind(pool.submit(wrap(call, task)), task);
    }

    public static Future submit(CompletionService pool, Runnable run, Object result) {
        Task task = new Task(pool, true);
        return bind(pool.submit(wrap(run, task, false), result), task);
    }

    private static Future received(Future future) {
        Task task = future == null ? null : OF.get(future);
        if (task != null) task.ended();
        return future;
    }

    public static Future take(CompletionService pool) throws InterruptedException { return received(pool.take()); }

    public static Future poll(CompletionService pool) { return received(pool.poll()); }

    public static Future poll(CompletionService pool, long time, TimeUnit unit) throws InterruptedException {
        return received(pool.poll(time, unit));
    }

    private static List all(ExecutorService pool, Collection calls, List<Task> tasks) {
        List wrapped = new ArrayList();
        for (Object call : calls) {
            Task task = new Task(pool, true);
            tasks.add(task);
            wrapped.add(call instanceof Callable c ? wrap(c, task) : call);
        }
        return wrapped;
    }

    private static List ended(List futures, List<Task> tasks) {
        for (int i = 0; i < futures.size(); i++) {
            bind(futures.get(i), tasks.get(i));
            if (!((Future) futures.get(i)).isCancelled()) tasks.get(i).ended();
        }
        return futures;
    }

    public static List invokeAll(ExecutorService pool, Collection calls) throws InterruptedException {
        List<Task> tasks = new ArrayList<>();
        return ended(pool.invokeAll(all(pool, calls, tasks)), tasks);
    }

    public static List invokeAll(ExecutorService pool, Collection calls, long time, TimeUnit unit) throws InterruptedException {
        List<Task> tasks = new ArrayList<>();
        return ended(pool.invokeAll(all(pool, calls, tasks), time, unit), tasks);
    }

    public static Object invokeAny(ExecutorService pool, Collection calls) throws InterruptedException, ExecutionException {
        List<Task> tasks = new ArrayList<>();
        Object result = pool.invokeAny(all(pool, calls, tasks));
        for (Task task : tasks) if (task.order != null) task.ended();
        return result;
    }

    public static ScheduledFuture schedule(ScheduledExecutorService pool, Runnable run, long delay, TimeUnit unit) {
        Task task = new Task(pool, true);
        return bind(pool.schedule(wrap(run, task, false), delay, unit), task);
    }

    public static ScheduledFuture schedule(ScheduledExecutorService pool, Callable call, long delay, TimeUnit unit) {
        Task task = new Task(pool, true);
        return bind(pool.schedule(wrap(call, task), delay, unit), task);
    }

    public static ScheduledFuture scheduleAtFixedRate(ScheduledExecutorService pool, Runnable run, long first, long period, TimeUnit unit) {
        return pool.scheduleAtFixedRate(wrap(run, new Task(pool, false), true), first, period, unit);
    }

    public static ScheduledFuture scheduleWithFixedDelay(ScheduledExecutorService pool, Runnable run, long first, long delay, TimeUnit unit) {
        return pool.scheduleWithFixedDelay(wrap(run, new Task(pool, false), true), first, delay, unit);
    }

    private static boolean ended(ExecutorService pool, boolean is) {
        Ends ends = is ? ENDS.get(pool) : null;
        if (ends != null) ends.receive();
        return is;
    }

    public static boolean awaitTermination(ExecutorService pool, long time, TimeUnit unit) throws InterruptedException {
        return ended(pool, pool.awaitTermination(time, unit));
    }

    public static boolean isTerminated(ExecutorService pool) { return ended(pool, pool.isTerminated()); }

    public static boolean awaitQuiescence(ForkJoinPool pool, long time, TimeUnit unit) { return ended(pool, pool.awaitQuiescence(time, unit)); }

    // Futures.

    private static void done(Object future) {
        if (future instanceof CompletableFuture<?> stage) Futures.found(stage);
        else received((Future) future);
    }

    public static Object get(Future future) throws InterruptedException, ExecutionException {
        try {
            return future.get();
        } finally {
            if (future.isDone()) done(future);
        }
    }

    public static Object get(Future future, long time, TimeUnit unit) throws InterruptedException, ExecutionException, TimeoutException {
        try {
            return future.get(time, unit);
        } finally {
            if (future.isDone()) done(future);
        }
    }

    public static boolean isDone(Future future) {
        boolean is = future.isDone();
        if (is && !future.isCancelled()) done(future);
        return is;
    }

    /** The task inside a FutureTask that is being made; what is made is told behind it. */
    public static Callable made(Callable call) {
        Task task = new Task(null, true);
        Trace.me().made = task;
        return wrap(call, task);
    }

    public static Runnable made(Runnable run) {
        Task task = new Task(null, true);
        Trace.me().made = task;
        return wrap(run, task, false);
    }

    public static void madeIs(Object future) {
        Task task = (Task) Trace.me().made;
        if (task != null) OF.put(future, task);
        Trace.me().made = null;
    }

    // Tasks of a ForkJoinPool, whose bodies tell of themselves.

    private static Task handed(ForkJoinTask task) {
        Task made = new Task(null, true);
        pend(task, made, false);
        OF.put(task, made);
        return made;
    }

    public static ForkJoinTask fork(ForkJoinTask task) {
        handed(task);
        return task.fork();
    }

    public static Object join(ForkJoinTask task) {
        Object result = task.join();
        received(task);
        return result;
    }

    public static Object invoke(ForkJoinPool pool, ForkJoinTask task) {
        handed(task);
        Object result = pool.invoke(task);
        received(task);
        return result;
    }

    public static ForkJoinTask submit(ForkJoinPool pool, ForkJoinTask task) {
        handed(task);
        return pool.submit(task);
    }

    public static void execute(ForkJoinPool pool, ForkJoinTask task) {
        handed(task);
        pool.execute(task);
    }

    public static ForkJoinTask submit(ForkJoinPool pool, Runnable run) {
        Task task = new Task(pool, true);
        return bind(pool.submit(wrap(run, task, false)), task);
    }

    public static ForkJoinTask submit(ForkJoinPool pool, Callable call) {
        Task task = new Task(pool, true);
        return bind(pool.submit(wrap(call, task)), task);
    }

    private static void together(ForkJoinTask... tasks) {
        for (ForkJoinTask task : tasks) handed(task);
        ForkJoinTask.invokeAll(tasks);
        for (ForkJoinTask task : tasks) received(task);
    }

    // In place of the static methods of ForkJoinTask.

    public static void invokeAll(ForkJoinTask[] tasks) { together(tasks); }

    public static void invokeAll(ForkJoinTask one, ForkJoinTask other) { together(one, other); }

    public static Collection invokeAll(Collection tasks) {
        together((ForkJoinTask[]) tasks.toArray(new ForkJoinTask[0]));
        return tasks;
    }

    // Timers.

    private static void pend(TimerTask task, boolean forever) { pend(task, new Task(null, false), forever); }

    public static void schedule(Timer timer, TimerTask task, long delay) {
        pend(task, false);
        timer.schedule(task, delay);
    }

    public static void schedule(Timer timer, TimerTask task, Date time) {
        pend(task, false);
        timer.schedule(task, time);
    }

    public static void schedule(Timer timer, TimerTask task, long delay, long period) {
        pend(task, true);
        timer.schedule(task, delay, period);
    }

    public static void scheduleAtFixedRate(Timer timer, TimerTask task, long delay, long period) {
        pend(task, true);
        timer.scheduleAtFixedRate(task, delay, period);
    }
}
