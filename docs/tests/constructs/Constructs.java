import java.util.ArrayList;
import java.util.HashSet;
import java.util.List;
import java.util.Map;
import java.util.Set;
import java.util.TreeMap;
import java.util.concurrent.TimeUnit;
import java.util.concurrent.locks.Condition;

/** Constructs clean|race OUT: what the recorder has, used once each; in a race one call has no order. */
class Constructs {
    private static void want(boolean is) {
        if (!is) throw new AssertionError();
    }

    private static void threads(RdRecord r) throws InterruptedException {
        var lock = r.lock("lock");
        Condition full = lock.newCondition();
        var box = r.register("box", null);
        var waiter = r.thread("waiter", () -> {
            lock.lock();
            lock.lock();                                                 // it is held twice
            try {
                while (box.read() == null) full.await(5, TimeUnit.SECONDS);
            } catch (InterruptedException e) {
                throw new IllegalStateException(e);
            } finally {
                lock.unlock();
                lock.unlock();
            }
        });
        waiter.start();
        Thread.sleep(5);
        lock.lock();
        box.write("full");
        full.signalAll();
        lock.unlock();
        waiter.join();
        want(box.compareAndSet("full", 1) && !box.compareAndSet("full", 1) && box.swap(2).equals(1));
        try {
            full.await();
            throw new AssertionError();
        } catch (IllegalMonitorStateException e) { }                     // it isn't held
        want(lock.tryLock());
        lock.unlock();
    }

    private static void more(RdRecord r) throws InterruptedException {
        var parts = r.bag("parts", List.of("nut", "nut"));
        var high = r.peak("high", 3L);
        var jobs = r.itemQueue("jobs", List.of("a", "b"));
        var words = r.<String>tally("words");
        var guard = r.lock("guard");
        var got = new HashSet<String>();
        Runnable work = () -> {
            guard.lock();
            got.add(jobs.dequeue());
            guard.unlock();
            parts.add("bolt");
            words.hit("x");
            high.raise(2);
        };
        var first = r.thread("work", work);
        var second = r.thread("work", work);
        first.start();
        second.start();
        first.join();
        second.join();
        want(got.equals(Set.of("a", "b")) && jobs.dequeue() == null && jobs.size() == 0);
        want(parts.remove("nut") && parts.remove("nut") && !parts.remove("nut") && parts.count("bolt") == 2);
        want(high.raise(7) == 3 && high.get() == 7 && r.peak("none", null).get() == null);
        want(words.count("x") == 2 && words.count("y") == 0 && words.total() == 2);
    }

    private static void tasks(RdRecord r, boolean race) throws InterruptedException {
        var shelf = r.dictionary("shelf", new TreeMap<>(Map.of("a", 1)));
        var items = r.set("items", List.of("i"));
        var count = r.counter("count", 3);
        var messages = r.<String>queue("messages", 1);
        var latch = r.latch("latch", 2);
        want(count.addAndGet(4) == 7 && shelf.merge("a", 5, Integer::sum) == 6);
        want(shelf.putIfAbsent("a", 9) == 6 && shelf.putIfAbsent("b", 9) == null && shelf.remove("b") == 9);
        want(items.add("j") && items.remove("i") && items.contains("j") && items.size() == 1);
        try (var pool = r.pool("task", 2)) {
            var first = pool.submit(() -> { shelf.put("first", 1); latch.countDown(); messages.put("put"); return 1; });
            var second = pool.submit(() -> { if (race) shelf.get("first"); latch.countDown(); return 2; });
            latch.await();
            want(shelf.get("first") == 1 && messages.take().equals("put"));
            want(first.get() == 1 && second.get() == 2);
        }
        Thread stranger = new Thread(() -> count.add(1));                // the recorder didn't start it
        int before = (int) count.get();
        stranger.start();
        stranger.join();
        want(before == 7);
    }

    private static void shared(RdRecord r) throws InterruptedException {
        var lock = r.readWriteLock("prices");
        var price = r.register("price", 0);
        var gate = r.semaphore("gate", 0);
        Runnable work = () -> {
            for (int i = 0; i < 3; i++) {
                lock.readLock().lock();
                price.read();
                lock.readLock().unlock();
                lock.writeLock().lock();
                price.write((Integer) price.read() + 1);
                lock.readLock().lock();                                  // the writer becomes a reader
                lock.writeLock().unlock();
                price.read();
                lock.readLock().unlock();
            }
        };
        var first = r.thread("reader", work);
        var second = r.thread("reader", work);
        first.start();
        second.start();
        first.join();
        second.join();
        want(price.read().equals(6) && lock.readLock().tryLock());
        lock.readLock().unlock();
        var opener = r.thread("opener", () -> {
            price.write(7);
            gate.release();                                              // it never took it
        });
        opener.start();
        gate.acquire();
        want(price.read().equals(7));
        opener.join();
        var results = r.dictionary("results", Map.of());
        try (var pool = r.workers("worker", 2)) {
            results.put("given", 1);
            var answer = pool.submit(() -> results.put("given", 2));
            want(answer.get().equals(1) && results.put("given", 3).equals(2));
            for (int i = 0; i < 10; i++) {
                int n = i;
                pool.submit(() -> results.put(n, n));
            }
        }
        for (int i = 0; i < 10; i++) want(results.get(i).equals(i));
    }

    record Point(int x, Object of) { }

    private static void values(RdRecord r) {
        Object[] keys = {"a", 'a', 1, 1L, 1.0, 1.0f, "1", "1L", "'1L", (short) 1, (byte) 1, true, "true", TimeUnit.DAYS, "x".repeat(300),
            "x".repeat(301), "\u00e4", "\ud800", "\"\\\n", List.of(1), new Point(1, "a"), new Point(1, 'a'), Set.of()};
        var map = r.dictionary("values", Map.of());
        for (Object key : keys) want(map.put(key, key) == null);
        for (Object key : keys) want(map.get(key) == key);
        want(map.get(new ArrayList<>(List.of(1))) != null && map.get(new Point(1, "a")) != null);
        List<Object> grows = new ArrayList<>();
        map.put("list", grows);
        grows.add(1);
        want(map.put("list", new ArrayList<>(grows)) == grows);
    }

    public static void main(String[] words) throws Exception {
        try (RdRecord r = new RdRecord(words[1], "The constructs of the recorder.")) {
            threads(r);
            more(r);
            shared(r);
            values(r);
            tasks(r, words[0].equals("race"));
        }
    }
}
