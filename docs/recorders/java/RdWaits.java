import java.lang.reflect.InvocationTargetException;
import java.lang.reflect.Proxy;
import java.util.List;
import java.util.Queue;
import java.util.concurrent.*;
import java.util.concurrent.locks.Lock;
import java.util.concurrent.locks.ReadWriteLock;
import java.util.concurrent.locks.ReentrantReadWriteLock;
import java.util.function.Supplier;

/** What threads wait for besides a lock, as RdRecord makes it: pools, locks that readers share, permits, queues of messages, latches. */
public final class RdWaits {
    private static final int OWN = 256;                                  // names of messages before they are used again

    private RdWaits() { }

    /** A pool whose tasks, or whose workers, are threads of the trace. */
    public static final class Pool implements AutoCloseable {
        private final RdRecord to;
        private final String name;
        private final boolean tasks;
        private final ExecutorService inner;
        private final List<String> begun = new CopyOnWriteArrayList<>();  // the threads that end with it
        private final Queue<String> free = new ConcurrentLinkedQueue<>(); // locks of tasks whose results were fetched
        private int made;

        Pool(RdRecord to, String name, int workers, boolean tasks) {
            this.to = to;
            this.name = name;
            this.tasks = tasks;
            inner = Executors.newFixedThreadPool(workers, body -> {
                if (tasks) return new Thread(body);
                String id = begin();                                     // by the thread whose task makes a worker
                return new Thread(() -> { to.names.set(id); body.run(); }, id);
            });
        }

        private String begin() {
            String id = to.fresh(name);
            to.fork(to.me(), id);
            begun.add(id);
            return id;
        }

        private synchronized String lock() { return made++ < OWN || free.isEmpty() ? to.fresh(name + "-task") : free.poll(); }

        /** Hands a task in. The answer waits for its end and has its result. */
        public <R> Supplier<R> submit(Callable<R> task) {
            String id = tasks ? begin() : lock();
            if (!tasks) to.pair(id);
            Future<R> future = inner.submit(() -> tasks ? to.as(id, task) : run(id, task));
            to.rest();
            return () -> {
                try {
                    return future.get();
                } catch (ExecutionException e) {                         // it has ended too
                    throw new IllegalStateException(e.getCause());
                } catch (InterruptedException e) {
                    throw new IllegalStateException(e);
                } finally {
                    if (future.isDone()) ended(id);
                }
            };
        }

        private <R> R run(String lock, Callable<R> task) throws Exception {
            to.receive(lock);
            try {
                return task.call();
            } finally {
                to.pair(lock);
            }
        }

        /** Waits for the end of all tasks. */
        @Override public void close() throws InterruptedException {
            inner.shutdown();
            while (!inner.awaitTermination(1, TimeUnit.HOURS)) { }
            begun.forEach(this::joined);                                 // once more for most tasks, which is no fault
        }

        private void ended(String id) {
            if (tasks) joined(id);
            else {
                to.receive(id);
                if (!free.contains(id)) free.add(id);
            }
        }

        private void joined(String id) {
            to.join(id);
        }
    }

    /** A lock that readers share: writers are ordered with all, and readers not among each other. */
    public static final class ReaderLock implements ReadWriteLock {
        private final RdRecord to;
        private final ReentrantReadWriteLock inner = new ReentrantReadWriteLock();
        private final Lock reader;
        private final Lock writer;

        ReaderLock(RdRecord to, String name) {
            this.to = to;
            String id = to.fresh(name);
            reader = side(inner.readLock(), "share ", "unshare ", id);
            writer = side(inner.writeLock(), "acquire ", "release ", id);
        }

        @Override public Lock readLock() { return reader; }
        @Override public Lock writeLock() { return writer; }

        private Lock side(Lock side, String take, String back, String id) {
            Class<?>[] type = {Lock.class};
            return (Lock) Proxy.newProxyInstance(RdWaits.class.getClassLoader(), type, (proxy, method, args) -> {
                if (method.getName().equals("newCondition")) throw new UnsupportedOperationException();
                boolean gives = method.getName().equals("unlock");
                boolean holds = side == inner.readLock() ? inner.getReadHoldCount() > 0 : inner.isWriteLockedByCurrentThread();
                if (gives && holds) to.mark(back, id, -1);
                try {
                    Object got = method.invoke(side, args);
                    if (!gives && !Boolean.FALSE.equals(got)) to.mark(take, id, 1);
                    to.rest();
                    return got;
                } catch (InvocationTargetException e) {
                    throw e.getCause();
                }
            });
        }
    }

    /** Permits: what was done before one is given back comes before what follows a later taking, whichever threads these are. */
    public static final class Permits extends Semaphore {
        private final RdRecord to;
        private final String id;

        Permits(RdRecord to, String name, int permits) {
            super(permits);
            this.to = to;
            id = to.fresh(name);
        }

        private boolean taken(boolean is) {
            if (is) to.receive(id);
            return is;
        }

        @Override public void acquire() throws InterruptedException { super.acquire(); taken(true); }
        @Override public void acquire(int n) throws InterruptedException { super.acquire(n); taken(true); }
        @Override public void acquireUninterruptibly() { super.acquireUninterruptibly(); taken(true); }
        @Override public void acquireUninterruptibly(int n) { super.acquireUninterruptibly(n); taken(true); }
        @Override public boolean tryAcquire() { return taken(super.tryAcquire()); }
        @Override public boolean tryAcquire(int n) { return taken(super.tryAcquire(n)); }
        @Override public boolean tryAcquire(long time, TimeUnit unit) throws InterruptedException { return taken(super.tryAcquire(time, unit)); }
        @Override public boolean tryAcquire(int n, long time, TimeUnit unit) throws InterruptedException {
            return taken(super.tryAcquire(n, time, unit));
        }

        @Override public void release() { release(1); }
        @Override public void release(int n) {
            to.pair(id);
            super.release(n);
        }
    }

    /** A queue of messages: what was done before a put comes before what follows the take of its message. */
    public static final class MessageQueue<T> {
        private record Message<T>(String lock, T item) { }
        private final RdRecord to;
        private final String id;
        private final BlockingQueue<Message<T>> inner;
        private final Queue<String> free = new ConcurrentLinkedQueue<>(); // locks of messages that were taken
        private int made;

        MessageQueue(RdRecord to, String name, int capacity) {
            this.to = to;
            id = to.fresh(name);
            inner = new LinkedBlockingQueue<>(capacity);
        }

        private synchronized String lock() { return made++ < OWN || free.isEmpty() ? to.fresh(id) : free.poll(); }

        /** Puts a message in, and waits while the queue is full. */
        public void put(T item) throws InterruptedException {
            String lock = lock();
            to.pair(lock);
            inner.put(new Message<>(lock, item));
            to.rest();
        }

        /** Takes a message out, and waits while there is none. */
        public T take() throws InterruptedException { return taken(inner.take()); }

        /** Takes a message out, or has null where none came in this time. */
        public T poll(long time, TimeUnit unit) throws InterruptedException { return taken(inner.poll(time, unit)); }

        private T taken(Message<T> got) {
            if (got == null) return null;
            to.receive(got.lock());
            free.add(got.lock());
            return got.item();
        }
    }

    /** A latch: what was done before a counting down comes before what follows a wait that ended. */
    public static final class Latch extends CountDownLatch {
        private final RdRecord to;
        private final String id;
        private final List<String> locks = new CopyOnWriteArrayList<>(); // one for each counting down

        Latch(RdRecord to, String name, int count) {
            super(count);
            this.to = to;
            id = to.fresh(name);
        }

        @Override public void countDown() {
            String lock = to.fresh(id);
            to.pair(lock);
            locks.add(lock);
            super.countDown();
            to.rest();
        }

        @Override public void await() throws InterruptedException {
            super.await();
            locks.forEach(to::receive);
        }

        @Override public boolean await(long time, TimeUnit unit) throws InterruptedException {
            boolean open = super.await(time, unit);
            if (open) locks.forEach(to::receive);
            return open;
        }
    }
}
