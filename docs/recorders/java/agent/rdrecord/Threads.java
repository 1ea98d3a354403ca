package rdrecord;

/** What the rewritten code calls for threads and monitors. */
public final class Threads {
    private static final Weak<Object, Order> MONITORS = new Weak<>();
    private static final Weak<Thread, Order> INTERRUPTS = new Weak<>();
    private static final ClassValue<Boolean> OVERRIDES = new ClassValue<>() {
        @Override protected Boolean computeValue(Class<?> of) {
            try {
                return of.getMethod("start").getDeclaringClass() != Thread.class;
            } catch (ReflectiveOperationException | LinkageError e) {
                return false;
            }
        }
    };

    private Threads() { }

    static Order monitor(Object of) {
        return MONITORS.get(of, o -> Trace.order(o instanceof Class<?> c ? Values.label(c) + ".class" : Values.label(o.getClass())));
    }

    public static void entered(Object of) {
        Trace.acquired(monitor(of));
        Trace.rest();
    }

    public static void leaving(Object of) {
        if (of != null) Trace.releasing(monitor(of));
    }

    /** A thread whose class has a start of its own tells the fork where that calls the one of Thread. */
    public static void start(Thread thread) {
        if (!OVERRIDES.get(thread.getClass())) Trace.start(thread);
        thread.start();
    }

    /** Before super.start(), where owner is the class above. */
    public static void starting(Object thread, Class<?> owner) {
        if (!OVERRIDES.get(owner)) Trace.start((Thread) thread);
    }

    public static void join(Thread thread) throws InterruptedException {
        thread.join();
        Trace.ended(thread);
    }

    public static void join(Thread thread, long millis) throws InterruptedException {
        thread.join(millis);
        Trace.ended(thread);
    }

    public static void join(Thread thread, long millis, int nanos) throws InterruptedException {
        thread.join(millis, nanos);
        Trace.ended(thread);
    }

    public static boolean isAlive(Thread thread) {
        boolean alive = thread.isAlive();
        if (!alive) Trace.ended(thread);
        return alive;
    }

    public static Thread.State getState(Thread thread) {
        Thread.State state = thread.getState();
        if (state == Thread.State.TERMINATED) Trace.ended(thread);
        return state;
    }

    /** An interrupt comes before what the interrupted thread does once it has learnt of it. */
    public static void interrupt(Thread thread) {
        Trace.send(INTERRUPTS.get(thread, t -> Trace.order("interrupt")));
        thread.interrupt();
    }

    public static boolean isInterrupted(Thread thread) {
        boolean is = thread.isInterrupted();
        Order order = is ? INTERRUPTS.get(thread) : null;
        if (order != null) Trace.receive(order);
        return is;
    }

    /** Behind whatever has thrown InterruptedException, and where the asking thread finds that it was interrupted. */
    public static void interrupted() {
        Order order = INTERRUPTS.get(Thread.currentThread());
        if (order != null) Trace.receive(order);
    }

    /** A wait gives the monitor back as often as it is held, and takes it again. */
    public static void wait(Object of) throws InterruptedException { wait(of, 0, 0); }

    public static void wait(Object of, long millis) throws InterruptedException { wait(of, millis, 0); }

    public static void wait(Object of, long millis, int nanos) throws InterruptedException {
        Order order = monitor(of);
        int depth = Thread.holdsLock(of) && order.owner == Trace.me() ? order.depth : 0;
        for (int i = 0; i < depth; i++) Trace.releasing(order);
        try {
            if (nanos == 0) of.wait(millis);
            else of.wait(millis, nanos);
        } finally {
            for (int i = 0; i < depth; i++) Trace.acquired(order);
        }
    }
}
