import java.util.ArrayList;
import java.util.Collections;
import java.util.HashMap;
import java.util.List;
import java.util.Map;
import java.util.Timer;
import java.util.TimerTask;
import java.util.Vector;
import java.util.concurrent.*;
import java.util.concurrent.atomic.AtomicBoolean;
import java.util.concurrent.atomic.AtomicInteger;
import java.util.concurrent.atomic.AtomicLong;
import java.util.concurrent.atomic.AtomicReference;
import java.util.concurrent.locks.Condition;
import java.util.concurrent.locks.ReentrantLock;
import java.util.concurrent.locks.ReentrantReadWriteLock;
import java.util.concurrent.locks.StampedLock;
import java.util.stream.IntStream;

/** Unchanged clean|race: a program that knows of no recorder; in a race one call has no order. */
public final class Unchanged {
    /** What each part checks its orders with: the calls on one key of it race where nothing orders them. */
    private static final ConcurrentHashMap<String, Object> SHELF = new ConcurrentHashMap<>();
    private static final Object PLAIN = new Object();
    private static volatile boolean ready;
    private static int plain;                                            // asked for as a register

    private Unchanged() { }

    private static void want(boolean is) {
        if (!is) throw new AssertionError();
    }

    private static void touch(String key) {
        SHELF.put(key, 1);
        SHELF.remove(key);
    }

    interface Body { void run() throws Exception; }

    private static Thread thread(Body body) {
        Thread made = new Thread(() -> {
            try {
                body.run();
            } catch (Exception e) {
                throw new IllegalStateException(e);
            }
        });
        made.start();
        return made;
    }

    static class Worker extends Thread {
        @Override public void run() { touch("worker"); }

        @Override public synchronized void start() {
            touch("worker");                                             // before its start, by the starting thread
            super.start();
        }
    }

    private static void threads() throws Exception {
        Worker worker = new Worker();
        worker.start();
        worker.join();
        touch("worker");
        Thread timed = thread(() -> touch("timed"));
        timed.join(10_000);
        touch("timed");
        Thread polled = thread(() -> touch("polled"));
        while (polled.isAlive()) Thread.sleep(1);
        touch("polled");
        List<Thread> all = new ArrayList<>();
        for (int i = 0; i < 3; i++) all.add(new Thread(() -> { synchronized (PLAIN) { touch("monitor"); } }));
        all.forEach(Thread::start);
        for (Thread each : all) each.join();
        touch("monitor");
        Thread sleeper = thread(() -> {
            try {
                Thread.sleep(10_000);
            } catch (InterruptedException e) {
                touch("interrupt");
            }
        });
        touch("interrupt");
        sleeper.interrupt();
        sleeper.join();
    }

    private synchronized void fails() {
        touch("fails");
        throw new IllegalStateException("left by an exception");
    }

    private static void monitors() throws Exception {
        Unchanged it = new Unchanged();
        Body failing = () -> {
            for (int i = 0; i < 5; i++) {
                try {
                    it.fails();
                } catch (IllegalStateException e) { }
            }
        };
        Thread first = thread(failing);
        Thread second = thread(failing);
        first.join();
        second.join();
        boolean[] full = {false};
        Thread waiter = thread(() -> {
            synchronized (PLAIN) {
                synchronized (PLAIN) {
                    while (!full[0]) PLAIN.wait();
                }
                touch("wait");
            }
        });
        Thread.sleep(5);
        synchronized (PLAIN) {
            touch("wait");
            full[0] = true;
            PLAIN.notifyAll();
        }
        waiter.join();
    }

    private static void locks() throws Exception {
        ReentrantLock lock = new ReentrantLock();
        Condition condition = lock.newCondition();
        boolean[] full = {false};
        Thread waiter = thread(() -> {
            lock.lock();
            try {
                while (!full[0]) condition.await();
                touch("lock");
            } finally {
                lock.unlock();
            }
        });
        Thread.sleep(2);
        if (!lock.tryLock(5, TimeUnit.SECONDS)) throw new AssertionError();
        touch("lock");
        full[0] = true;
        condition.signal();
        lock.unlock();
        waiter.join();
        ReentrantReadWriteLock both = new ReentrantReadWriteLock();
        SHELF.put("both", 0);
        List<Thread> all = new ArrayList<>();
        for (int i = 0; i < 3; i++) {
            all.add(thread(() -> {
                both.readLock().lock();
                SHELF.get("both");
                both.readLock().unlock();
                both.writeLock().lock();
                SHELF.put("both", (Integer) SHELF.get("both") + 1);
                both.readLock().lock();
                both.writeLock().unlock();
                SHELF.get("both");
                both.readLock().unlock();
            }));
        }
        for (Thread each : all) each.join();
        want(SHELF.get("both").equals(3));
        Semaphore permits = new Semaphore(0);
        CountDownLatch latch = new CountDownLatch(2);
        CyclicBarrier barrier = new CyclicBarrier(2, () -> touch("barrier"));
        StampedLock stamped = new StampedLock();
        Body meet = () -> {
            permits.acquire();
            touch("permit");
            permits.release();                                           // not by the one that took it at first
            long stamp = stamped.writeLock();
            touch("stamp");
            stamped.unlockWrite(stamp);
            latch.countDown();
            for (int i = 0; i < 3; i++) {
                barrier.await();
                if (Thread.currentThread().getName().equals("x" + i)) touch("barrier");
                barrier.await();
            }
        };
        Thread one = thread(meet);
        Thread other = thread(meet);
        touch("permit");
        permits.release();
        latch.await();
        touch("permit");
        touch("stamp");
        one.join();
        other.join();
    }

    private static void messages() throws Exception {
        BlockingQueue<Object> queue = new ArrayBlockingQueue<>(2);
        SynchronousQueue<String> direct = new SynchronousQueue<>();
        ConcurrentLinkedQueue<String> linked = new ConcurrentLinkedQueue<>();
        Thread taker = thread(() -> {
            for (int i = 0; i < 20; i++) {
                Object got = queue.take();
                SHELF.put("message" + got, "took");
            }
            direct.take();
            touch("direct");
            want("a".equals(linked.poll()) && linked.poll() == null);
        });
        for (int i = 0; i < 20; i++) {
            SHELF.put("message" + i, "sent");
            queue.put(i);
        }
        linked.add("a");
        touch("direct");
        direct.put("go");
        taker.join();
        List<String> several = Collections.synchronizedList(new ArrayList<>());
        Vector<String> vector = new Vector<>();
        Thread giver = thread(() -> {
            touch("several");
            several.add("x");
            touch("vector");
            vector.add("x");
        });
        while (several.isEmpty()) Thread.sleep(1);
        touch("several");
        while (!vector.contains("x")) Thread.sleep(1);
        touch("vector");
        giver.join();
        ConcurrentHashMap<String, ConcurrentHashMap<String, Integer>> outer = new ConcurrentHashMap<>();
        CountDownLatch begun = new CountDownLatch(1);
        Thread reader = thread(() -> {
            begun.await();
            want(outer.get("inner").get("a") == 1);
        });
        ConcurrentHashMap<String, Integer> inner = new ConcurrentHashMap<>();
        inner.put("a", 1);
        outer.put("inner", inner);
        begun.countDown();
        reader.join();
    }

    /** Walks find what others put: what was done before comes before. The outer map's own calls race, so none asks it for a key. */
    private static void walks() throws Exception {
        ConcurrentHashMap<Integer, ConcurrentHashMap<String, Integer>> outer = new ConcurrentHashMap<>();
        LinkedBlockingQueue<ConcurrentHashMap<String, Integer>> queue = new LinkedBlockingQueue<>();
        Thread walker = thread(() -> {
            int[] met = {0};
            while (met[0] < 300) {
                for (var each : outer.values()) met[0] += each.get("x");
                for (var each : outer.entrySet()) met[0] += each.getValue().get("x");
                outer.forEach((key, each) -> met[0] += each.get("x"));
                outer.values().stream().forEach(each -> met[0] += each.get("x"));
                for (var each : new ArrayList<>(outer.values())) met[0] += each.get("x");
                for (var each : queue) met[0] += each.get("x");
                queue.forEach(each -> met[0] += each.get("x"));
            }
        });
        for (int i = 0; i < 20; i++) {
            ConcurrentHashMap<String, Integer> made = new ConcurrentHashMap<>();
            made.put("x", 1);
            outer.put(i, made);
            made = new ConcurrentHashMap<>();
            made.put("x", 1);
            queue.add(made);
        }
        walker.join();
    }

    private static final AtomicInteger STATE = new AtomicInteger();
    private static final AtomicReference<Object> HOLDER = new AtomicReference<>();
    private static final AtomicLong HITS = new AtomicLong();             // asked for as a counter

    private static final AtomicReference<Object> TOTAL = new AtomicReference<>("none"); // asked for as a register

    /** A class that is asked for by its methods. */
    static class Jobs {
        private final java.util.ArrayDeque<Object> all = new java.util.ArrayDeque<>();

        synchronized void add(Object job) { all.add(job); }

        synchronized Object next() { return all.poll(); }
    }

    static class Late {
        static final ConcurrentHashMap<String, Integer> MADE = new ConcurrentHashMap<>();
        static {
            MADE.put("first", 1);
        }
    }

    private static void variables() throws Exception {
        Thread sender = thread(() -> {
            touch("volatile");
            ready = true;
            touch("atomic");
            STATE.incrementAndGet();
            touch("holder");
            HOLDER.compareAndSet(null, "here");
            HITS.incrementAndGet();
            HITS.addAndGet(2);
        });
        while (!ready) Thread.onSpinWait();
        touch("volatile");
        while (STATE.get() == 0) Thread.onSpinWait();
        touch("atomic");
        while (HOLDER.get() == null) Thread.onSpinWait();
        touch("holder");
        HITS.getAndIncrement();
        sender.join();
        plain++;
        want(HITS.get() == 4);
        Body uses = () -> want(Late.MADE.get("first") == 1);
        Thread a = thread(uses);
        Thread b = thread(uses);
        a.join();
        b.join();
        Jobs jobs = new Jobs();
        jobs.add("first");
        Thread taker = thread(() -> {
            want(jobs.next().equals("first") && jobs.next() == null);
            TOTAL.compareAndSet("none", "some");
        });
        taker.join();
        want(TOTAL.get().equals("some"));
        AtomicBoolean done = new AtomicBoolean();
        Thread c = thread(() -> { touch("done"); done.set(true); });
        while (!done.get()) Thread.onSpinWait();
        touch("done");
        c.join();
    }

    static class Sum extends RecursiveTask<Integer> {
        private final int from;
        private final int to;

        Sum(int from, int to) {
            this.from = from;
            this.to = to;
        }

        @Override protected Integer compute() {
            if (to - from == 1) {
                SHELF.put("sum" + from, from);
                return from;
            }
            Sum left = new Sum(from, (from + to) / 2);
            left.fork();
            int right = new Sum((from + to) / 2, to).compute();
            int sum = left.join() + right;
            for (int i = from; i < to; i++) SHELF.get("sum" + i);
            return sum;
        }
    }

    static class Named implements Callable<String> {
        @Override public String call() {
            touch("named");
            return "named";
        }
    }

    private static void tasks() throws Exception {
        ExecutorService pool = Executors.newFixedThreadPool(2);
        touch("task");
        Future<?> first = pool.submit(() -> touch("task"));
        first.get();
        touch("task");
        touch("named");
        want(pool.submit(new Named()).get().equals("named"));
        touch("named");
        List<Callable<Integer>> calls = new ArrayList<>();
        for (int i = 0; i < 4; i++) {
            int n = i;
            calls.add(() -> { touch("all" + n); return n; });
        }
        for (Future<Integer> each : pool.invokeAll(calls)) touch("all" + each.get());
        FutureTask<String> made = new FutureTask<>(() -> { touch("made"); return "x"; });
        touch("made");
        pool.execute(made);
        want(made.get().equals("x"));
        touch("made");
        for (int i = 0; i < 4; i++) {
            int n = i;
            pool.execute(() -> touch("end" + n));
        }
        pool.shutdown();
        want(pool.awaitTermination(10, TimeUnit.SECONDS));
        for (int i = 0; i < 4; i++) touch("end" + i);
        touch("stage");
        CompletableFuture<Integer> stage = CompletableFuture.supplyAsync(() -> { touch("stage"); return 1; })
            .thenApply(n -> { touch("stage"); return n + 1; }).thenCompose(n -> CompletableFuture.supplyAsync(() -> { touch("stage"); return n + 1; }));
        want(stage.get() == 3);
        touch("stage");
        CompletableFuture<String> promise = new CompletableFuture<>();
        Thread keeper = thread(() -> { touch("promise"); promise.complete("kept"); });
        want(promise.join().equals("kept"));
        touch("promise");
        keeper.join();
        want(new ForkJoinPool(3).invoke(new Sum(0, 8)) == 28);
        for (int i = 0; i < 8; i++) touch("sum" + i);
        for (int i = 0; i < 8; i++) touch("stream" + i);
        IntStream.range(0, 8).parallel().forEach(i -> touch("stream" + i));
        for (int i = 0; i < 8; i++) touch("stream" + i);
        Timer timer = new Timer(true);
        CountDownLatch rung = new CountDownLatch(1);
        touch("timer");
        timer.schedule(new TimerTask() {
            @Override public void run() {
                touch("timer");
                rung.countDown();
            }
        }, 1);
        rung.await();
        touch("timer");
        timer.cancel();
    }

    record Point(int x, List<Integer> of) { }

    static class Key {
        private final String name;

        Key(String name) { this.name = name; }

        @Override public boolean equals(Object other) { return other instanceof Key key && key.name.equals(name); }
        @Override public int hashCode() { return name.hashCode(); }
    }

    private static void values() {
        ConcurrentHashMap<Object, Object> map = new ConcurrentHashMap<>();
        Object[] keys = {"a", 'a', 1, 1L, 1.0, 1.0f, "1", "'a'", "'1L", (short) 1, (byte) 1, true, "true", TimeUnit.DAYS, "x".repeat(300), "x".repeat(301), "\u00e4", "\ud800", "\"\\\n"};
        for (Object key : keys) want(map.put(key, key) == null);
        for (Object key : keys) want(map.get(key) == key);
        List<Integer> grows = new ArrayList<>();
        map.put("list", grows);
        grows.add(1);
        want(map.put("list", new ArrayList<>(grows)) == grows);
        want(map.put(new Key("k"), 1) == null && map.put(new Key("k"), 2).equals(1));
        want(map.put(new Point(1, List.of()), 1) == null);
        map.computeIfAbsent("made", k -> "made");
        map.merge("made", "more", (a, b) -> a + "" + b);
        map.entrySet().removeIf(e -> e.getKey().equals("made"));
        map.keySet().remove("list");
        var walk = map.keySet().iterator();
        walk.next();
        walk.remove();
        Map<String, Integer> counts = new HashMap<>();
        map.forEach((k, v) -> counts.merge(k.getClass().getName(), 1, Integer::sum));
        map.clear();
        want(map.isEmpty());
    }

    public static void main(String[] words) throws Exception {
        threads();
        monitors();
        locks();
        messages();
        walks();
        variables();
        tasks();
        values();
        boolean race = words[0].equals("race");
        Thread last = thread(() -> touch("last"));
        if (race) touch("last");
        last.join();
        Thread daemon = new Thread(() -> {
            while (true) {
                touch("daemon");
                Thread.yield();
            }
        });
        daemon.setDaemon(true);
        daemon.start();
    }
}
