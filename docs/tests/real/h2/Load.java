import java.sql.Connection;
import java.sql.DriverManager;
import java.sql.PreparedStatement;
import java.sql.ResultSet;
import java.sql.SQLException;
import java.sql.Statement;
import java.util.ArrayList;
import java.util.List;
import org.h2.mvstore.MVMap;
import org.h2.mvstore.MVStore;

/** Load own|shared|sql: threads load H2's map store, with keys of their own or with the same ones, or an in-memory database by SQL. */
public final class Load {
    private static final int THREADS = 4;
    private static final int STEPS = 60;

    private Load() { }

    interface Work { void run(int number) throws Exception; }

    private static void together(Work work) throws Exception {
        List<Thread> all = new ArrayList<>();
        for (int i = 0; i < THREADS; i++) {
            int number = i;
            Thread thread = new Thread(() -> {
                try {
                    work.run(number);
                } catch (Exception e) {
                    throw new IllegalStateException(e);
                }
            }, "load-" + number);
            all.add(thread);
            thread.start();
        }
        for (Thread each : all) each.join();
    }

    private static void store(boolean shared) throws Exception {
        MVStore store = new MVStore.Builder().autoCommitDisabled().open();
        MVMap<Integer, String> data = store.openMap("data");
        List<MVMap<Integer, String>> maps = new ArrayList<>();
        for (int i = 0; i < THREADS; i++) maps.add(store.openMap("own" + i));
        together(n -> {
            for (int k = 0; k < STEPS; k++) {
                int key = shared ? k % 10 : n * STEPS + k;
                data.put(key, "v" + n);
                data.get(key);
                maps.get(n).put(k, "own");
                if (k % 20 == 0) store.commit();
                if (shared && k % 25 == 0) store.openMap("other" + k % 2).get(k);
            }
        });
        int size = data.size();
        if (size != (shared ? 10 : THREADS * STEPS)) throw new AssertionError("size " + size);
        store.close();
    }

    private static void execute(Connection connection, String sql) throws SQLException {
        try (Statement statement = connection.createStatement()) {
            statement.execute(sql);
        }
    }

    private static void sql() throws Exception {
        String url = "jdbc:h2:mem:load;DB_CLOSE_DELAY=-1";
        try (Connection first = DriverManager.getConnection(url)) {
            execute(first, "create table account(id int primary key, amount int)");
            for (int i = 0; i < THREADS; i++) execute(first, "insert into account values(" + i + ", 0)");
        }
        together(n -> {
            try (Connection mine = DriverManager.getConnection(url);
                 PreparedStatement add = mine.prepareStatement("update account set amount = amount + 1 where id = ?")) {
                for (int k = 0; k < STEPS; k++) {
                    add.setInt(1, n);
                    add.executeUpdate();
                    if (k % 10 == 0) {
                        try (Statement ask = mine.createStatement(); ResultSet all = ask.executeQuery("select sum(amount) from account")) {
                            all.next();
                        }
                    }
                }
            }
        });
        try (Connection last = DriverManager.getConnection(url); Statement ask = last.createStatement();
             ResultSet all = ask.executeQuery("select sum(amount) from account")) {
            all.next();
            if (all.getInt(1) != THREADS * STEPS) throw new AssertionError("sum " + all.getInt(1));
        }
    }

    public static void main(String[] words) throws Exception {
        if (words[0].equals("sql")) sql();
        else store(words[0].equals("shared"));
    }
}
