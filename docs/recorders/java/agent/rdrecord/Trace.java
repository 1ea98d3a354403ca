package rdrecord;

import java.io.BufferedOutputStream;
import java.io.FileOutputStream;
import java.io.IOException;
import java.io.OutputStream;
import java.lang.ref.WeakReference;
import java.nio.charset.StandardCharsets;
import java.util.ArrayList;
import java.util.HashMap;
import java.util.HashSet;
import java.util.List;
import java.util.Map;
import java.util.Set;
import java.util.concurrent.ForkJoinWorkerThread;
import java.util.concurrent.locks.LockSupport;

/**
 * The lines of a run. Each is written under one lock of the recorder's own, under which nothing waits and no code of the program runs.
 * Nothing here ever throws: a recorder's trouble is told in a comment, and the program goes on.
 */
final class Trace {
    private static final int MOST_THREADS = 4096;
    private static final int MOST_LOCKS = 65536;
    private static final int MOST_OBJECTS = 65536;
    private static final int MANY = MOST_THREADS / 2;                    // from here on a join is told so that the name can be used again
    private static final int FULL = MOST_THREADS - 64;                   // from here on names are used again
    private static final Object ONE = new Object();                      // the recorder's own lock
    private static final ThreadLocal<Lane> MINE = new ThreadLocal<>();
    private static final Weak<Thread, Lane> LANES = new Weak<>();
    private static final List<Lane> ALL = new ArrayList<>();
    private static final Map<String, Integer> NAMES = new HashMap<>();   // of threads, each with its count
    private static final Map<String, Integer> COUNTS = new HashMap<>();  // of locks and objects by sort
    private static final Set<String> TOLD = new HashSet<>();
    private static String file;
    private static OutputStream out;
    private static Lane main;
    private static Lane system;                                          // begins the threads whose start wasn't seen
    private static Order more;                                           // stands for all locks beyond the limit
    private static int turn;
    private static int locks;
    private static int objects;
    private static volatile Order streams;                               // before the last operations of parallel streams
    private static final List<Order> LOOSE = new ArrayList<>();          // the ends of what their workers do
    private static volatile boolean open;
    private static volatile boolean several;                             // more threads than main were there
    private static boolean logs;
    private static boolean shaking;

    private Trace() { }

    /** Begins a trace in this file; the calling thread is main. */
    static void begin(String path) throws IOException {
        file = path;
        logs = "yes".equals(System.getenv("RDRECORD_LOGS"));
        shaking = !"no".equals(System.getenv("RDRECORD_SHAKING"));
        open = true;
        if (!logs) {
            out = new BufferedOutputStream(new FileOutputStream(path), 1 << 16);  // a channel would be closed by an interrupt
            write("rdtrace 2\n");
        }
        main = lane("main");
        MINE.set(main);
        LANES.put(Thread.currentThread(), main);
        system = lane("system");
        if (!logs) write("thread main\nthread system\n");
        Runtime.getRuntime().addShutdownHook(new Thread(Trace::end, "rdrecord end"));
    }

    private static void end() {
        synchronized (ONE) {
            open = false;
            try {
                if (out != null) out.close();
                for (Lane lane : ALL) lane.flush();
            } catch (IOException e) {
                System.err.println("rdrecord: " + e);
            }
        }
    }

    private static void write(String text) {
        if (!open) return;
        try {
            out.write(text.getBytes(StandardCharsets.UTF_8));
        } catch (IOException e) {
            stop("the trace can't be written: " + e);
        }
    }

    /** Ends the recording, not the program. */
    private static void stop(String why) {
        if (!open) return;
        comment(why + ": nothing is recorded from here on");
        open = false;
        System.err.println("rdrecord: " + why + ": nothing is recorded from here on");
        try {
            if (out != null) out.flush();
        } catch (IOException e) {
            System.err.println("rdrecord: " + e);
        }
    }

    private static void comment(String text) {
        if (logs) log(main, "# " + text.replaceAll("[^ -~]", "?") + "\n");
        else write("# " + text.replaceAll("[^ -~]", "?") + "\n");
    }

    private static void log(Lane lane, String text) {
        if (!open) return;
        try {
            lane.log(text.getBytes(StandardCharsets.UTF_8));
        } catch (IOException e) {
            stop("a log can't be written: " + e);
        }
    }

    /** Says something once, as a comment. */
    static void tell(String what) {
        synchronized (ONE) {
            if (open && TOLD.add(what)) comment(what);
        }
    }

    private static void near(String what, int have, int most) {
        if (have == most * 9 / 10 && open) {
            comment("near the limit " + what + " " + most);
            System.err.println("rdrecord: near the limit " + what + " " + most);
        }
    }

    private static String clean(String sort, int most) {
        StringBuilder made = new StringBuilder();
        for (int i = 0; i < sort.length() && i < most; i++) {
            char c = sort.charAt(i);
            boolean may = c >= 'A' && c <= 'Z' || c >= 'a' && c <= 'z' || c >= '0' && c <= '9' || "_.:$#@-".indexOf(c) >= 0;
            made.append(may ? c : '_');
        }
        return made.length() == 0 ? "_" : made.toString();
    }

    private static Lane lane(String sort) {                              // under ONE, but for the first
        if (ALL.size() == MOST_THREADS) {
            stop("limit threads " + MOST_THREADS);
            return new Lane("none", null);
        }
        String base = clean(sort, 48);
        int n = NAMES.merge(base, 1, Integer::sum);
        String name = base;
        while (n > 1 && NAMES.putIfAbsent(name = base + "." + n, 1) != null) n = NAMES.merge(base, 1, Integer::sum);
        String log = logs ? (file.endsWith(".trace") ? file.substring(0, file.length() - 6) : file) + "." + name + ".log" : null;
        if (logs) {
            try {
                new FileOutputStream(log).close();                       // empty, if there was one before
            } catch (IOException e) {
                stop("a log can't be opened: " + e);
            }
        }
        Lane made = new Lane(name, log);
        ALL.add(made);
        if (logs) log(made, "rdlog 1 " + name + "\n");
        near("threads", ALL.size(), MOST_THREADS);
        return made;
    }

    /** The thread that asks. One whose start wasn't seen is begun by a root that does nothing else, so nothing orders it but what is told. */
    static Lane me() {
        Lane mine = MINE.get();
        if (mine != null) return mine;
        Thread self = Thread.currentThread();
        mine = LANES.get(self);
        if (mine == null) {
            synchronized (ONE) {
                mine = fork(system, self.getName(), self);
            }
            LANES.put(self, mine);
        }
        MINE.set(mine);
        return mine;
    }

    /** Lets the asking thread be this one; what it was is the answer. */
    static Lane be(Lane lane) {
        Lane was = me();
        MINE.set(lane);
        return was;
    }

    private static Lane fork(Lane by, String name, Thread thread) {      // under ONE
        several = true;
        Lane old = ALL.size() < FULL ? null : over();
        if (old != null) return again(by, old, name, thread);
        Lane made = lane(name);
        made.thread = new WeakReference<>(thread);
        if (logs) log(by, "fork " + made.name + "\n");
        else write("fork " + by.name + " " + made.name + "\n");
        return made;
    }

    /** A thread that has ended and that no line has joined, or null; the one that was longest not asked for. */
    private static Lane over() {
        for (int i = 0; i < ALL.size(); i++) {
            Lane each = ALL.get(turn = (turn + 1) % ALL.size());
            if (each.joined || each.thread == null) continue;
            Thread thread = each.thread.get();
            if (thread == null || thread.getState() == Thread.State.TERMINATED) return each;
        }
        return null;
    }

    /** A thread goes on under the name of one that has ended: what that did comes before, which orders more. */
    private static Lane again(Lane by, Lane old, String name, Thread thread) {
        if (old.start == null) old.start = order("start");
        Lane made = old.next(new WeakReference<>(thread));
        ALL.set(ALL.indexOf(old), made);
        comment(clean(name, 48) + " goes on as " + old.name + ", since there are too many threads: races may be missed");
        pass(by, made, old.start);
        return made;
    }

    /** A message between two threads, of which the asking one is one and the other doesn't run. */
    private static void pass(Lane from, Lane to, Order order) {
        if (logs) {
            synchronized (order) {
                pair(from, order);
                pair(to, order);
            }
        } else {
            write("acquire " + from.name + " " + order.name + "\nrelease " + from.name + " " + order.name + "\n"
                + "share " + to.name + " " + order.name + "\nunshare " + to.name + " " + order.name + "\n");
        }
        order.version++;
    }

    /** Writes that the asking thread starts this one. */
    static void start(Thread thread) {
        if (!open || LANES.get(thread) != null || thread.getState() != Thread.State.NEW) return;
        Lane by = me();
        synchronized (ONE) {
            LANES.put(thread, fork(by, thread.getName(), thread));
        }
        rest(by);
    }

    /** A thread of the trace that the asking thread begins, and that is no thread of Java's. */
    static Lane forked(String name) {
        Lane by = me();
        synchronized (ONE) {
            return ALL.size() < MOST_THREADS * 9 / 10 && open ? fork(by, name, null) : null;
        }
    }

    /** Writes that the asking thread knows that this one has ended. */
    static void ended(Thread thread) {
        if (open && thread.getState() == Thread.State.TERMINATED) join(LANES.get(thread));
    }

    static void join(Lane ended) {
        Lane by = me();
        if (!open || ended == null || ended == by || by.joined || by.ended.put(ended, true) != null) return;
        synchronized (ONE) {
            if (ALL.size() > MANY && ended.thread != null) {
                if (ended.end == null) ended.end = order("end");
                if (ALL.contains(ended)) pass(ended, by, ended.end);
                else receive(ended.end);                                 // its name was used again
                return;
            }
            ended.joined = true;
            if (logs) log(by, "join " + ended.name + "\n");
            else write("join " + by.name + " " + ended.name + "\n");
        }
        rest(by);
    }

    static boolean several() { return several; }

    static boolean recording(Lane lane) { return open && !lane.joined && lane.quiet == 0; }

    /** A new lock. Beyond the limit one stands for all others, which orders more. */
    static Order order(String sort) {
        synchronized (ONE) {
            if (more == null) {
                more = new Order("more", true);
                locks++;
            }
            if (locks >= MOST_LOCKS) {
                if (TOLD.add("locks")) comment("limit locks " + MOST_LOCKS + ": all further locks are one, races may be missed");
                return more;
            }
            near("locks", ++locks, MOST_LOCKS);
            return new Order(fresh(sort), false);
        }
    }

    private static String fresh(String sort) {
        String base = clean(sort, 48);
        return base + "." + COUNTS.merge(base, 1, Integer::sum);
    }

    static void acquired(Order order) {
        Lane me = me();
        me.held++;
        if (order.paired) {
            send(order);
            return;
        }
        order.owner = me;
        order.depth++;
        if (recording(me)) line(me, "acquire", order);
    }

    /** Before the asking thread gives a lock back. One that it doesn't hold, as far as is known, has no line. */
    static void releasing(Order order) {
        Lane me = me();
        if (order.paired) {
            me.held--;
            send(order);
            return;
        }
        if (order.owner != me || order.depth == 0) return;
        me.held--;
        order.depth--;
        if (recording(me)) line(me, "release", order);
    }

    static void shared(Order order) {
        Lane me = me();
        me.held++;
        me.shares.merge(order, 1, Integer::sum);
        if (!recording(me)) return;
        if (logs || order.paired) send(order);
        else line(me, "share", order);
    }

    static void unsharing(Order order) {
        Lane me = me();
        if (me.shares.getOrDefault(order, 0) == 0) return;
        me.held--;
        me.shares.merge(order, -1, (a, b) -> a + b == 0 ? null : a + b);
        if (!recording(me)) return;
        if (logs || order.paired) send(order);
        else line(me, "unshare", order);
    }

    private static void line(Lane me, String word, Order order) {
        if (logs) {
            if (word.equals("acquire")) log(me, "acquire " + order.name + " " + ++order.count + "\n");  // it is held
            else log(me, word + " " + order.name + "\n");
            return;
        }
        synchronized (ONE) {
            write(word + " " + me.name + " " + order.name + "\n");
        }
    }

    /** A pair: what the asking thread did comes before what follows each later pair or receiving. */
    static void send(Order order) {
        Lane me = me();
        if (!recording(me)) return;
        synchronized (logs ? order : ONE) {
            if (logs) pair(me, order);
            else write("acquire " + me.name + " " + order.name + "\nrelease " + me.name + " " + order.name + "\n");
            me.seen.put(order, ++order.version);
        }
    }

    private static void pair(Lane me, Order order) {                     // under this order
        log(me, "acquire " + order.name + " " + ++order.count + "\nrelease " + order.name + "\n");
    }

    /** A pair that shares: what was sent comes before what follows. Where nothing new was sent there is no line. */
    static void receive(Order order) {
        int version = order.version;
        if (version == 0) return;
        Lane me = me();
        Integer seen = me.seen.get(order);
        if (seen != null && seen == version || !recording(me)) return;
        synchronized (logs ? order : ONE) {
            if (logs) pair(me, order);
            else write("share " + me.name + " " + order.name + "\nunshare " + me.name + " " + order.name + "\n");
        }
        me.seen.put(order, version);
    }

    /** Declares an object, and has its name; or null, where there are too many. */
    static String object(String sort, String kind) {
        Lane me = me();
        synchronized (ONE) {
            if (objects >= MOST_OBJECTS) {
                if (TOLD.add("objects")) comment("limit objects " + MOST_OBJECTS + ": further objects aren't recorded");
                return null;
            }
            near("objects", ++objects, MOST_OBJECTS);
            String name = fresh(sort);
            if (logs) log(me, "object " + name + " " + kind + "\n");
            else write("object " + name + " " + kind + "\n");
            return name;
        }
    }

    /** Where parallel streams may run: before a stream's last operation and behind it. Their workers' calls come between the two. */
    static void streams(boolean before) {
        if (streams == null) return;
        if (before) {
            send(streams);
            return;
        }
        List<Order> all;
        synchronized (ONE) {
            all = new ArrayList<>(LOOSE);
        }
        all.forEach(Trace::receive);
    }

    static void parallel() {
        if (streams == null) {
            Order made = order("streams");
            synchronized (ONE) {
                if (streams == null) streams = made;
            }
        }
    }

    private static boolean loose(Lane me) { return streams != null && me.known == 0 && Thread.currentThread() instanceof ForkJoinWorkerThread; }

    private static void looseBegin() { receive(streams); }

    private static void looseEnd(Lane me) {
        if (me.loose == null) {
            me.loose = order("stream");
            synchronized (ONE) {
                LOOSE.add(me.loose);
            }
        }
        send(me.loose);
    }

    /** Writes a call: its lines, each without the thread. */
    static void call(String place, String object, String... calls) {
        Lane me = me();
        if (!recording(me) || object == null) return;
        boolean loose = loose(me);
        if (loose) looseBegin();
        StringBuilder text = new StringBuilder();
        for (String call : calls) {
            text.append(place).append("call ");
            if (!logs) text.append(me.name).append(' ');
            text.append(object).append(' ').append(call).append('\n');
        }
        if (logs) log(me, text.toString());
        else {
            synchronized (ONE) {
                write(text.toString());
            }
        }
        if (loose) looseEnd(me);
    }

    /** Gives way, so that more orders are met; never while the thread holds a lock of the program. */
    static void rest(Lane me) {
        if (!shaking || me.held > 0 || !open) return;
        Thread.yield();
    }

    static void rest() { rest(me()); }

    /** A moment's wait that an interrupt doesn't end with an exception. */
    static void moment() { LockSupport.parkNanos(20_000); }
}
