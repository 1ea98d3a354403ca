import java.lang.management.ManagementFactory;
import java.util.ArrayList;
import java.util.List;
import java.util.Map;
import java.util.concurrent.ConcurrentHashMap;
import java.util.concurrent.locks.ReentrantLock;

/**
 * Cost [hand]: what a step costs, in microseconds, at 1, 4 and 16 threads: a put of a concurrent map, taking and giving back a lock of the
 * thread's own, a write of a volatile field. Of one thread also the processor's time, which a busy machine changes less. Run it alone, under
 * the agent, or with `hand` by the classes of RdRecord.
 */
public final class Cost {
    private static final int STEPS = 20_000;
    private static final int[] THREADS = {1, 4, 16};

    private Cost() { }

    interface Step { void run(int i); }

    interface Kind { Step of(int thread); }

    private static void steps(Step step, long[] used) {
        var clock = ManagementFactory.getThreadMXBean();
        long begun = clock.getCurrentThreadCpuTime();
        for (int i = 0; i < STEPS; i++) step.run(i);
        used[0] = clock.getCurrentThreadCpuTime() - begun;
    }

    private static String told(int threads, long nanos, long[] used) {
        String text = String.format("  %d: %.2f", threads, nanos / 1e3 / STEPS);
        return threads > 1 ? text : text + String.format(" (processor %.2f)", used[0] / 1e3 / STEPS);
    }

    private static String time(int threads, Kind kind) throws InterruptedException {
        List<Thread> all = new ArrayList<>();
        long[] used = {0};
        long begun = System.nanoTime();
        for (int t = 0; t < threads; t++) {
            Step step = kind.of(t);
            Thread thread = new Thread(() -> steps(step, used));
            all.add(thread);
            thread.start();
        }
        for (Thread each : all) each.join();
        return told(threads, System.nanoTime() - begun, used);
    }

    private static void tell(String what, Kind kind) throws InterruptedException {
        time(1, kind);                                                   // so that it is compiled
        StringBuilder line = new StringBuilder(what);
        for (int threads : THREADS) line.append(time(threads, kind));
        System.out.println(line);
    }

    private static String byHand(RdRecord r, int threads, Kind kind) throws InterruptedException {
        List<RdRecord.Forked> all = new ArrayList<>();
        long[] used = {0};
        for (int t = 0; t < threads; t++) {
            Step step = kind.of(t);
            all.add(r.thread("t", () -> steps(step, used)));
        }
        long begun = System.nanoTime();
        for (RdRecord.Forked each : all) each.start();
        for (RdRecord.Forked each : all) each.join();
        return told(threads, System.nanoTime() - begun, used);
    }

    private static void hand() throws Exception {
        try (RdRecord r = new RdRecord("cost.trace", "What a step costs.")) {
            RdRecord.Dictionary<Integer, Integer> map = r.dictionary("map", Map.of());
            Kind put = thread -> i -> map.put(thread, i);
            Kind lock = thread -> {
                RdRecord.Mutex own = r.lock("lock");
                return i -> {
                    own.lock();
                    own.unlock();
                };
            };
            byHand(r, 1, put);
            byHand(r, 1, lock);
            for (int threads : THREADS) System.out.println("put " + byHand(r, threads, put));
            for (int threads : THREADS) System.out.println("lock" + byHand(r, threads, lock));
        }
    }

    public static void main(String[] words) throws Exception {
        if (words.length > 0) {
            hand();
            return;
        }
        ConcurrentHashMap<Integer, Integer> map = new ConcurrentHashMap<>();
        tell("put ", thread -> i -> map.put(thread, i));
        tell("lock", thread -> {
            ReentrantLock lock = new ReentrantLock();
            return i -> {
                lock.lock();
                lock.unlock();
            };
        });
        tell("volatile", thread -> new Step() {
            private volatile int field;

            @Override public void run(int i) { field = i; }
        });
    }
}
