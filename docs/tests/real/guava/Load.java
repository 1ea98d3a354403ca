import com.google.common.cache.CacheBuilder;
import com.google.common.cache.CacheLoader;
import com.google.common.cache.LoadingCache;
import com.google.common.util.concurrent.Futures;
import com.google.common.util.concurrent.ListenableFuture;
import com.google.common.util.concurrent.ListeningExecutorService;
import com.google.common.util.concurrent.MoreExecutors;
import com.google.common.util.concurrent.SettableFuture;
import com.google.common.util.concurrent.Striped;
import java.util.ArrayList;
import java.util.List;
import java.util.concurrent.ConcurrentHashMap;
import java.util.concurrent.Executors;
import java.util.concurrent.locks.Lock;

/** Load cache|futures|striped: four threads use what Guava orders them by, and see what they did before by a map on whose keys nothing else orders them. */
public final class Load {
    private static final ConcurrentHashMap<String, Integer> SEEN = new ConcurrentHashMap<>();

    private Load() { }

    interface Work { void run(int number) throws Exception; }

    private static void together(Work work) throws Exception {
        List<Thread> all = new ArrayList<>();
        for (int i = 0; i < 4; i++) {
            int number = i;
            Thread thread = new Thread(() -> {
                try {
                    work.run(number);
                } catch (Exception e) {
                    throw new IllegalStateException(e);
                }
            }, "load-" + number);
            all.add(thread);
            thread.start();
        }
        for (Thread each : all) each.join();
    }

    private static void want(boolean is) {
        if (!is) throw new AssertionError();
    }

    private static void cache() throws Exception {
        LoadingCache<Integer, String> cache = CacheBuilder.newBuilder().maximumSize(1000).build(new CacheLoader<>() {
            @Override public String load(Integer key) {
                SEEN.put("loaded" + key, key);                           // before all that find it loaded
                return "v" + key;
            }
        });
        together(n -> {
            for (int k = 0; k < 60; k++) {
                want(cache.get(k).equals("v" + k));
                want(SEEN.get("loaded" + k) == k);
            }
        });
    }

    private static void futures() throws Exception {
        ListeningExecutorService pool = MoreExecutors.listeningDecorator(Executors.newFixedThreadPool(3));
        for (int k = 0; k < 30; k++) {
            String key = "future" + k;
            SEEN.put(key, 0);
            ListenableFuture<Integer> first = pool.submit(() -> SEEN.put(key, 1));
            SettableFuture<Integer> kept = SettableFuture.create();
            ListenableFuture<Integer> second = Futures.transform(first, x -> SEEN.put(key, 2), pool);
            Thread keeper = new Thread(() -> {
                SEEN.put(key + "kept", 1);
                kept.set(1);
            });
            keeper.start();
            want(Futures.allAsList(first, second, kept).get().equals(List.of(0, 1, 1)));
            want(SEEN.put(key, 3) == 2 && SEEN.put(key + "kept", 2) == 1);
            keeper.join();
        }
        pool.shutdown();
    }

    private static void striped() throws Exception {
        Striped<Lock> locks = Striped.lock(8);
        together(n -> {
            for (int k = 0; k < 60; k++) {
                Lock lock = locks.get(k % 10);
                lock.lock();
                try {
                    SEEN.merge("striped" + k % 10, 1, Integer::sum);
                } finally {
                    lock.unlock();
                }
            }
        });
        for (int k = 0; k < 10; k++) want(SEEN.get("striped" + k) == 24);
    }

    public static void main(String[] words) throws Exception {
        switch (words[0]) {
            case "cache" -> cache();
            case "futures" -> futures();
            default -> striped();
        }
    }
}
