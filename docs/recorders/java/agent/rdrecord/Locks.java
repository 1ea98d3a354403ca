package rdrecord;

import java.util.Date;
import java.util.concurrent.BrokenBarrierException;
import java.util.concurrent.CountDownLatch;
import java.util.concurrent.CyclicBarrier;
import java.util.concurrent.Exchanger;
import java.util.concurrent.Phaser;
import java.util.concurrent.Semaphore;
import java.util.concurrent.TimeUnit;
import java.util.concurrent.TimeoutException;
import java.util.concurrent.locks.Condition;
import java.util.concurrent.locks.Lock;
import java.util.concurrent.locks.ReadWriteLock;
import java.util.concurrent.locks.ReentrantReadWriteLock;
import java.util.concurrent.locks.StampedLock;

/**
 * What the rewritten code calls for the locks of java.util.concurrent. A lock of a class of the program is made of others, which are told.
 * What another thread may give back, as a semaphore's permit, is told as pairs.
 */
public final class Locks {
    private static final Weak<Object, Order> ORDERS = new Weak<>();
    private static final Weak<Object, Order> READERS = new Weak<>();     // the lock of which this is the reader's side

    private Locks() { }

    private static final ClassValue<Boolean> JAVA = new ClassValue<>() {  // also of a class that the program has below one of Java's
        @Override protected Boolean computeValue(Class<?> of) {
            Class<?> c = of;
            while (c.getClassLoader() != null && c.getSuperclass() != null) c = c.getSuperclass();
            return c != Object.class;
        }
    };

    static boolean ofJava(Object it) { return JAVA.get(it.getClass()); }

    static Order order(Object of) { return ORDERS.get(of, o -> Trace.order(Values.label(o.getClass()))); }

    public static Lock readLock(ReadWriteLock both) {
        Lock made = both.readLock();
        if (ofJava(both)) READERS.put(made, order(both));
        return made;
    }

    public static Lock writeLock(ReadWriteLock both) {
        Lock made = both.writeLock();
        if (ofJava(both)) ORDERS.put(made, order(both));
        return made;
    }

    public static ReentrantReadWriteLock.ReadLock readLock(ReentrantReadWriteLock both) {
        return (ReentrantReadWriteLock.ReadLock) readLock((ReadWriteLock) both);
    }

    public static ReentrantReadWriteLock.WriteLock writeLock(ReentrantReadWriteLock both) {
        return (ReentrantReadWriteLock.WriteLock) writeLock((ReadWriteLock) both);
    }

    private static void taken(Lock lock) {
        if (!ofJava(lock)) return;
        Order shared = READERS.get(lock);
        if (shared != null) Trace.shared(shared);
        else Trace.acquired(order(lock));
        Trace.rest();
    }

    public static void lock(Lock lock) {
        lock.lock();
        taken(lock);
    }

    public static void lockInterruptibly(Lock lock) throws InterruptedException {
        lock.lockInterruptibly();
        taken(lock);
    }

    public static boolean tryLock(Lock lock) {
        boolean is = lock.tryLock();
        if (is) taken(lock);
        return is;
    }

    public static boolean tryLock(Lock lock, long time, TimeUnit unit) throws InterruptedException {
        boolean is = lock.tryLock(time, unit);
        if (is) taken(lock);
        return is;
    }

    public static void unlock(Lock lock) {
        if (ofJava(lock)) {
            Order shared = READERS.get(lock);
            if (shared != null) Trace.unsharing(shared);
            else Trace.releasing(order(lock));
        }
        lock.unlock();
        Trace.rest();
    }

    public static Condition newCondition(Lock lock) {
        Condition made = lock.newCondition();
        if (ofJava(lock)) ORDERS.put(made, order(lock));
        return made;
    }

    private static int giveBack(Condition condition) {
        Order order = ORDERS.get(condition);
        int depth = order != null && order.owner == Trace.me() ? order.depth : 0;
        for (int i = 0; i < depth; i++) Trace.releasing(order);
        return depth;
    }

    private static void takeAgain(Condition condition, int depth) {
        for (int i = 0; i < depth; i++) Trace.acquired(ORDERS.get(condition));
    }

    public static void await(Condition condition) throws InterruptedException {
        int depth = giveBack(condition);
        try {
            condition.await();
        } finally {
            takeAgain(condition, depth);
        }
    }

    public static void awaitUninterruptibly(Condition condition) {
        int depth = giveBack(condition);
        try {
            condition.awaitUninterruptibly();
        } finally {
            takeAgain(condition, depth);
        }
    }

    public static boolean await(Condition condition, long time, TimeUnit unit) throws InterruptedException {
        int depth = giveBack(condition);
        try {
            return condition.await(time, unit);
        } finally {
            takeAgain(condition, depth);
        }
    }

    public static long awaitNanos(Condition condition, long nanos) throws InterruptedException {
        int depth = giveBack(condition);
        try {
            return condition.awaitNanos(nanos);
        } finally {
            takeAgain(condition, depth);
        }
    }

    public static boolean awaitUntil(Condition condition, Date deadline) throws InterruptedException {
        int depth = giveBack(condition);
        try {
            return condition.awaitUntil(deadline);
        } finally {
            takeAgain(condition, depth);
        }
    }

    public static void acquire(Semaphore permits) throws InterruptedException { acquire(permits, 1); }

    public static void acquire(Semaphore permits, int n) throws InterruptedException {
        permits.acquire(n);
        Trace.receive(order(permits));
    }

    public static void acquireUninterruptibly(Semaphore permits) { acquireUninterruptibly(permits, 1); }

    public static void acquireUninterruptibly(Semaphore permits, int n) {
        permits.acquireUninterruptibly(n);
        Trace.receive(order(permits));
    }

    public static boolean tryAcquire(Semaphore permits) { return tryAcquire(permits, 1); }

    public static boolean tryAcquire(Semaphore permits, int n) { return got(permits, permits.tryAcquire(n)); }

    public static boolean tryAcquire(Semaphore permits, long time, TimeUnit unit) throws InterruptedException {
        return got(permits, permits.tryAcquire(time, unit));
    }

    public static boolean tryAcquire(Semaphore permits, int n, long time, TimeUnit unit) throws InterruptedException {
        return got(permits, permits.tryAcquire(n, time, unit));
    }

    public static int drainPermits(Semaphore permits) {
        int n = permits.drainPermits();
        got(permits, n > 0);
        return n;
    }

    private static boolean got(Object of, boolean is) {
        if (is) Trace.receive(order(of));
        return is;
    }

    public static void release(Semaphore permits) { release(permits, 1); }

    public static void release(Semaphore permits, int n) {
        Trace.send(order(permits));
        permits.release(n);
        Trace.rest();
    }

    public static void countDown(CountDownLatch latch) {
        Trace.send(order(latch));
        latch.countDown();
        Trace.rest();
    }

    public static void await(CountDownLatch latch) throws InterruptedException {
        latch.await();
        Trace.receive(order(latch));
    }

    public static boolean await(CountDownLatch latch, long time, TimeUnit unit) throws InterruptedException {
        return got(latch, latch.await(time, unit));
    }

    public static long getCount(CountDownLatch latch) {
        long n = latch.getCount();
        Trace.receive(order(latch));
        return n;
    }

    /** The rounds of a barrier take turns at two locks: nobody is two rounds ahead. */
    private static final class Rounds {
        private final Order[] turns = {Trace.order("CyclicBarrier"), Trace.order("CyclicBarrier")};
        private final int parties;
        private long arrived;
        private boolean broken;

        Rounds(CyclicBarrier of) { parties = of.getParties(); }

        synchronized Order arrive() { return broken ? turns[0] : turns[(int) (arrived++ / parties & 1)]; }

        synchronized void fail() { broken = true; }
    }

    private static final Weak<CyclicBarrier, Rounds> BARRIERS = new Weak<>();

    /** The action of a barrier, which comes before what all do behind it. */
    public static Runnable action(Runnable action) {
        if (action == null) return null;
        return () -> {
            action.run();
            Order order = Trace.me().barrier;
            if (order != null) Trace.send(order);
        };
    }

    public static int await(CyclicBarrier barrier) throws InterruptedException, BrokenBarrierException {
        try {
            return await(barrier, 0, null);
        } catch (TimeoutException e) {
            throw new IllegalStateException(e);
        }
    }

    public static int await(CyclicBarrier barrier, long time, TimeUnit unit)
            throws InterruptedException, BrokenBarrierException, TimeoutException {
        Rounds rounds = BARRIERS.get(barrier, Rounds::new);
        Order order = rounds.arrive();
        Lane me = Trace.me();
        Trace.send(order);
        me.barrier = order;
        boolean passed = false;
        try {
            int index = unit == null ? barrier.await() : barrier.await(time, unit);
            passed = true;
            return index;
        } finally {
            me.barrier = null;
            if (!passed) rounds.fail();
            Trace.receive(order);
            if (rounds.broken) for (Order each : rounds.turns) Trace.receive(each);
            Trace.rest(me);
        }
    }

    public static void reset(CyclicBarrier barrier) {
        BARRIERS.get(barrier, Rounds::new).fail();
        barrier.reset();
    }

    public static int arrive(Phaser phaser) {
        Trace.send(order(phaser));
        return phaser.arrive();
    }

    public static int arriveAndDeregister(Phaser phaser) {
        Trace.send(order(phaser));
        return phaser.arriveAndDeregister();
    }

    public static int arriveAndAwaitAdvance(Phaser phaser) {
        Trace.send(order(phaser));
        int phase = phaser.arriveAndAwaitAdvance();
        Trace.receive(order(phaser));
        return phase;
    }

    public static int awaitAdvance(Phaser phaser, int phase) {
        int now = phaser.awaitAdvance(phase);
        Trace.receive(order(phaser));
        return now;
    }

    public static Object exchange(Exchanger<Object> with, Object item) throws InterruptedException {
        Trace.send(order(with));
        Object got = with.exchange(item);
        Trace.receive(order(with));
        return got;
    }

    public static Object exchange(Exchanger<Object> with, Object item, long time, TimeUnit unit)
            throws InterruptedException, TimeoutException {
        Trace.send(order(with));
        Object got = with.exchange(item, time, unit);
        Trace.receive(order(with));
        return got;
    }

    private static long stamp(StampedLock lock, long stamp) {
        if (stamp != 0) {
            Trace.receive(order(lock));
            Trace.rest();
        }
        return stamp;
    }

    private static void back(StampedLock lock) { Trace.send(order(lock)); }

    public static long writeLock(StampedLock lock) { return stamp(lock, lock.writeLock()); }

    public static long readLock(StampedLock lock) { return stamp(lock, lock.readLock()); }

    public static long writeLockInterruptibly(StampedLock lock) throws InterruptedException { return stamp(lock, lock.writeLockInterruptibly()); }

    public static long readLockInterruptibly(StampedLock lock) throws InterruptedException { return stamp(lock, lock.readLockInterruptibly()); }

    public static long tryWriteLock(StampedLock lock) { return stamp(lock, lock.tryWriteLock()); }

    public static long tryReadLock(StampedLock lock) { return stamp(lock, lock.tryReadLock()); }

    public static long tryWriteLock(StampedLock lock, long time, TimeUnit unit) throws InterruptedException {
        return stamp(lock, lock.tryWriteLock(time, unit));
    }

    public static long tryReadLock(StampedLock lock, long time, TimeUnit unit) throws InterruptedException {
        return stamp(lock, lock.tryReadLock(time, unit));
    }

    public static long tryOptimisticRead(StampedLock lock) { return stamp(lock, lock.tryOptimisticRead()); }

    public static long tryConvertToWriteLock(StampedLock lock, long stamp) {
        back(lock);
        return stamp(lock, lock.tryConvertToWriteLock(stamp));
    }

    public static long tryConvertToReadLock(StampedLock lock, long stamp) {
        back(lock);
        return stamp(lock, lock.tryConvertToReadLock(stamp));
    }

    public static boolean validate(StampedLock lock, long stamp) { return got(lock, lock.validate(stamp)); }

    public static void unlockWrite(StampedLock lock, long stamp) {
        back(lock);
        lock.unlockWrite(stamp);
    }

    public static void unlockRead(StampedLock lock, long stamp) {
        back(lock);
        lock.unlockRead(stamp);
    }

    public static void unlock(StampedLock lock, long stamp) {
        back(lock);
        lock.unlock(stamp);
    }
}
