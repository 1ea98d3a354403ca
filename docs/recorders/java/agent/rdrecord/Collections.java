package rdrecord;

import java.util.ArrayDeque;
import java.util.Collection;
import java.util.Deque;
import java.util.Iterator;
import java.util.List;
import java.util.Map;
import java.util.Queue;
import java.util.concurrent.BlockingDeque;
import java.util.concurrent.BlockingQueue;
import java.util.concurrent.ConcurrentHashMap;
import java.util.concurrent.ConcurrentLinkedDeque;
import java.util.concurrent.ConcurrentLinkedQueue;
import java.util.concurrent.CopyOnWriteArrayList;
import java.util.concurrent.TimeUnit;
import java.util.concurrent.TransferQueue;
import java.util.function.Consumer;
import java.util.function.Predicate;
import java.util.stream.Stream;

/**
 * What the rewritten code calls for queues, sets and lists: the last argument is the place. A queue of java.util.concurrent hands messages
 * on: what was done before an item is put in comes before what follows its taking. One for which nobody waits is an object besides.
 */
@SuppressWarnings({"rawtypes", "unchecked"})
public final class Collections {
    private static final int OWN = 256;                                  // names of messages of one queue, before they are used again

    private Collections() { }

    /** The messages that are under way in a queue. */
    private static final class Messages {
        private record Item(Object of) {
            @Override public int hashCode() { return System.identityHashCode(of); }
            @Override public boolean equals(Object other) { return other instanceof Item item && item.of == of; }
        }

        private static final class Way {
            final List<Order> orders = new java.util.ArrayList<>();
            int count;
        }

        private final Map<Item, Way> ways = new ConcurrentHashMap<>();
        private final Queue<Order> free = new ArrayDeque<>();
        private int made;

        private synchronized Order order() {
            if (made >= OWN && !free.isEmpty()) return free.poll();      // the one that was longest not used
            made++;
            return Trace.order("message");
        }

        Order send(Object item) {
            Order order = order();
            Trace.send(order);
            ways.compute(new Item(item), (k, way) -> {
                if (way == null) way = new Way();
                way.orders.add(order);
                way.count++;
                return way;
            });
            return order;
        }

        void undo(Object item) {
            ways.computeIfPresent(new Item(item), (k, way) -> --way.count > 0 ? way : null);
        }

        /** Of one item that is under way several times all are received, since nobody can say which it was. */
        void receive(Object item, boolean taken) {
            ways.computeIfPresent(new Item(item), (k, way) -> {
                for (Order order : way.orders) Trace.receive(order);
                if (!taken || --way.count > 0) return way;
                synchronized (this) {
                    free.addAll(way.orders);
                }
                return null;
            });
        }
    }

    private static final Weak<Object, Messages> MESSAGES = new Weak<>();
    private static final Weak<Object, Order> LISTS = new Weak<>();

    private static final ClassValue<Boolean> HANDS_ON = new ClassValue<>() {
        @Override protected Boolean computeValue(Class<?> of) {
            Class<?> c = of;
            while (c.getClassLoader() != null) c = c.getSuperclass();    // what the program has below one of Java's hands on too
            return BlockingQueue.class.isAssignableFrom(c) || ConcurrentLinkedQueue.class.isAssignableFrom(c)
                || ConcurrentLinkedDeque.class.isAssignableFrom(c);
        }
    };

    private static Messages messages(Collection it) {
        return it != null && HANDS_ON.get(it.getClass()) ? MESSAGES.get(it, o -> new Messages()) : null;
    }

    private static Things.Thing thing(Collection it, String kind) {
        Things.Thing t = Things.of(it);
        return t != null && t.kind.equals(kind) ? t : null;
    }

    private static boolean several() { return Trace.several(); }

    public static boolean add(Collection to, Object item, int place) { return put(to, item, place, () -> to.add(item)); }

    public static boolean offer(Queue to, Object item, int place) { return put(to, item, place, () -> to.offer(item)); }

    public static boolean offerLast(Deque to, Object item, int place) { return put(to, item, place, () -> to.offerLast(item)); }

    public static boolean offerFirst(Deque to, Object item, int place) { return put(to, item, place, () -> to.offerFirst(item)); }

    public static void addLast(Deque to, Object item, int place) { put(to, item, place, () -> { to.addLast(item); return true; }); }

    public static void addFirst(Deque to, Object item, int place) { put(to, item, place, () -> { to.addFirst(item); return true; }); }

    public static void push(Deque to, Object item, int place) { put(to, item, place, () -> { to.push(item); return true; }); }

    private interface Putting { boolean run(); }

    private static boolean put(Collection to, Object item, int place, Putting how) {
        Things.Thing queue = thing(to, "queue");
        Things.Thing set = queue == null ? thing(to, "set") : null;
        Messages messages = messages(to);
        if (queue == null && set == null && messages == null) {
            if (Guarded.is(to)) return Guarded.run(to, how::run);
            if (to instanceof CopyOnWriteArrayList) listSend(to);
            return how.run();
        }
        Things.Thing t = queue != null ? queue : set;
        if (messages != null) messages.send(item);
        if (set != null && several()) Trace.send(set.bucket(item));
        boolean one = t != null && t.begin();
        boolean done = false;
        try {
            done = how.run();
            if (queue != null && done) queue.call(place, "enqueue " + Values.spell(item) + " -> nil");
            if (set != null) set.call(place, "add " + set.key(item) + " -> " + done);
        } finally {
            if (t != null) t.end(one);
            if (!done && messages != null) messages.undo(item);
        }
        if (t == null) Trace.rest();
        return done;
    }

    public static void put(BlockingQueue to, Object item, int place) throws InterruptedException {
        Messages messages = messages(to);
        if (messages != null) messages.send(item);
        boolean done = false;
        try {
            to.put(item);
            done = true;
        } finally {
            if (!done && messages != null) messages.undo(item);
        }
        Trace.rest();
    }

    public static void putLast(BlockingDeque to, Object item, int place) throws InterruptedException { put(to, item, place); }

    public static void putFirst(BlockingDeque to, Object item, int place) throws InterruptedException {
        Messages messages = messages(to);
        if (messages != null) messages.send(item);
        to.putFirst(item);
    }

    public static void transfer(TransferQueue to, Object item, int place) throws InterruptedException {
        Messages messages = messages(to);
        if (messages != null) messages.send(item);
        to.transfer(item);
    }

    public static boolean offer(BlockingQueue to, Object item, long time, TimeUnit unit, int place) throws InterruptedException {
        Messages messages = messages(to);
        if (messages != null) messages.send(item);
        boolean done = false;
        try {
            done = to.offer(item, time, unit);
            return done;
        } finally {
            if (!done && messages != null) messages.undo(item);
        }
    }

    private static Object got(Collection from, Object item, boolean taken) {
        if (item == null) return null;
        Messages messages = messages(from);
        if (messages != null) messages.receive(item, taken);
        return item;
    }

    public static Object poll(Queue from, int place) {
        Things.Thing queue = thing(from, "queue");
        if (queue == null) return got(from, from.poll(), true);
        boolean one = queue.begin();
        Object item;
        try {
            item = from.poll();
            queue.call(place, "dequeue -> " + Values.spell(item));
        } finally {
            queue.end(one);
        }
        return got(from, item, true);
    }

    public static Object remove(Queue from, int place) {
        if (thing(from, "queue") == null) return got(from, from.remove(), true);
        Object item = poll(from, place);
        if (item == null) throw new java.util.NoSuchElementException();
        return item;
    }

    public static Object pollFirst(Deque from, int place) { return got(from, from.pollFirst(), true); }

    public static Object pollLast(Deque from, int place) { return got(from, from.pollLast(), true); }

    public static Object removeFirst(Deque from, int place) { return got(from, from.removeFirst(), true); }

    public static Object removeLast(Deque from, int place) { return got(from, from.removeLast(), true); }

    public static Object pop(Deque from, int place) { return got(from, from.pop(), true); }

    public static Object take(BlockingQueue from, int place) throws InterruptedException { return got(from, from.take(), true); }

    public static Object takeFirst(BlockingDeque from, int place) throws InterruptedException { return got(from, from.takeFirst(), true); }

    public static Object takeLast(BlockingDeque from, int place) throws InterruptedException { return got(from, from.takeLast(), true); }

    public static Object poll(BlockingQueue from, long time, TimeUnit unit, int place) throws InterruptedException {
        return got(from, from.poll(time, unit), true);
    }

    public static Object pollFirst(BlockingDeque from, long time, TimeUnit unit, int place) throws InterruptedException {
        return got(from, from.pollFirst(time, unit), true);
    }

    public static Object pollLast(BlockingDeque from, long time, TimeUnit unit, int place) throws InterruptedException {
        return got(from, from.pollLast(time, unit), true);
    }

    public static Object peek(Queue from, int place) { return got(from, from.peek(), false); }

    public static Object peekFirst(Deque from, int place) { return got(from, from.peekFirst(), false); }

    public static Object peekLast(Deque from, int place) { return got(from, from.peekLast(), false); }

    public static Object element(Queue from, int place) { return got(from, from.element(), false); }

    public static int drainTo(BlockingQueue from, Collection to, int place) { return drainTo(from, to, Integer.MAX_VALUE, place); }

    public static int drainTo(BlockingQueue from, Collection to, int most, int place) {
        List items = new java.util.ArrayList();
        int n = from.drainTo(items, most);
        for (Object item : items) got(from, item, true);
        to.addAll(items);
        return n;
    }

    public static boolean remove(Collection from, Object item, int place) {
        if (Maps.isView(from)) return Maps.removeFrom(from, item, place);
        if (Guarded.is(from)) return Guarded.run(from, () -> from.remove(item));
        Things.Thing set = thing(from, "set");
        if (set == null) {
            Things.Thing queue = thing(from, "queue");
            if (queue != null) queue.drop("remove of an item");
            listSend(from);
            return from.remove(item);
        }
        boolean one = set.begin();
        boolean done;
        try {
            done = from.remove(item);
            set.call(place, "remove " + set.key(item) + " -> " + done);
        } finally {
            set.end(one);
        }
        if (done && several()) Trace.receive(set.bucket(item));
        return done;
    }

    public static boolean contains(Collection in, Object item, int place) {
        if (Guarded.is(in)) return Guarded.run(in, () -> in.contains(item));
        Things.Thing set = thing(in, "set");
        if (set == null) {
            boolean is = in.contains(item);
            listReceive(in);
            return is;
        }
        boolean one = set.begin();
        boolean is;
        try {
            is = in.contains(item);
            set.call(place, "contains " + set.key(item) + " -> " + is);
        } finally {
            set.end(one);
        }
        if (is && several()) Trace.receive(set.bucket(item));
        return is;
    }

    public static int size(Collection of, int place) {
        if (Guarded.is(of)) return Guarded.run(of, of::size);
        Things.Thing t = Things.of(of);
        if (t == null || !t.kind.equals("set") && !t.kind.equals("queue")) {
            int size = of.size();
            listReceive(of);
            return size;
        }
        boolean one = t.begin();
        try {
            int size = of.size();
            t.call(place, "size -> " + size);
            return size;
        } finally {
            t.end(one);
        }
    }

    public static boolean isEmpty(Collection of, int place) {
        Things.Thing t = Things.of(of);
        if (t != null && (t.kind.equals("set") || t.kind.equals("queue"))) return size(of, place) == 0;
        if (Guarded.is(of)) return Guarded.run(of, of::isEmpty);
        boolean is = of.isEmpty();
        listReceive(of);
        return is;
    }

    public static boolean addAll(Collection to, Collection items, int place) {
        if (Guarded.is(to)) return Guarded.run(to, () -> to.addAll(items));
        if (Things.of(to) == null && messages(to) == null) {
            listSend(to);
            boolean any = to.addAll(items);
            copied(items);
            return any;
        }
        boolean any = false;
        for (Object item : items) any |= add(to, item, place);
        return any;
    }

    public static void clear(Collection of, int place) {
        if (Maps.isView(of)) {
            Maps.clearAll(of, place);
            return;
        }
        if (Guarded.is(of)) {
            Guarded.run(of, () -> { of.clear(); return null; });
            return;
        }
        Things.Thing t = Things.of(of);
        if (t != null && t.kind.equals("set")) {
            for (Object item : of.toArray()) remove(of, item, place);
            return;
        }
        if (t != null && t.kind.equals("queue")) {
            while (poll((Queue) of, place) != null) { }
            return;
        }
        listSend(of);
        of.clear();
    }

    public static boolean removeIf(Collection from, Predicate test, int place) {
        if (Maps.isView(from)) return Maps.removeIf(from, test, place);
        if (Guarded.is(from)) return Guarded.run(from, () -> from.removeIf(test));
        Things.Thing t = Things.of(from);
        if (t != null) {
            if (!t.kind.equals("set")) t.drop("removeIf");
            else {
                boolean any = false;
                for (Object item : from.toArray()) if (test.test(item)) any |= remove(from, item, place);
                return any;
            }
        }
        listSend(from);
        return from.removeIf(test);
    }

    public static boolean removeAll(Collection from, Collection items, int place) {
        if (Maps.isView(from) || Things.of(from) != null) return removeIf(from, items::contains, place);
        if (Guarded.is(from)) return Guarded.run(from, () -> from.removeAll(items));
        listSend(from);
        return from.removeAll(items);
    }

    public static boolean retainAll(Collection from, Collection items, int place) {
        if (Maps.isView(from) || Things.of(from) != null) return removeIf(from, item -> !items.contains(item), place);
        if (Guarded.is(from)) return Guarded.run(from, () -> from.retainAll(items));
        listSend(from);
        return from.retainAll(items);
    }

    /** A walk is no call; what it takes out is one. */
    public static Iterator iterator(Iterable of, int place) {
        if (!(of instanceof Collection all)) return of.iterator();
        if (Maps.isView(all)) return Maps.iterator(all, place);
        Messages messages = messages(all);
        Things.Thing t = Things.of(all);
        if (messages == null && t == null) {
            listReceive(all);
            return all.iterator();
        }
        Iterator inner = all.iterator();
        return new Iterator() {
            private Object last;

            @Override public boolean hasNext() { return inner.hasNext(); }

            @Override public Object next() {
                last = inner.next();
                if (t != null) t.receiveAll();
                return got(all, last, false);
            }

            @Override public void remove() {
                if (t != null && t.kind.equals("set")) Collections.remove(all, last, place);
                else {
                    if (t != null) t.drop("remove by an iterator");
                    inner.remove();
                }
            }
        };
    }

    public static Object get(List of, int i, int place) {
        if (Guarded.is(of)) return Guarded.run(of, () -> of.get(i));
        Object item = of.get(i);
        listReceive(of);
        return item;
    }

    public static Object set(List of, int i, Object item, int place) {
        if (Guarded.is(of)) return Guarded.run(of, () -> of.set(i, item));
        listSend(of);
        return of.set(i, item);
    }

    public static void add(List to, int i, Object item, int place) {
        if (Guarded.is(to)) {
            Guarded.run(to, () -> { to.add(i, item); return null; });
            return;
        }
        listSend(to);
        to.add(i, item);
    }

    public static Object remove(List from, int i, int place) {
        if (Guarded.is(from)) return Guarded.run(from, () -> from.remove(i));
        listSend(from);
        return from.remove(i);
    }

    /** What was found by a walk of Java's own. */
    private static Object[] walked(Collection of, Object[] items) {
        listReceive(of);
        Things.Thing t = Things.of(of);
        if (t != null) t.receiveAll();
        Maps.receiveAll(of);
        if (messages(of) != null) for (Object item : items) got(of, item, false);
        return items;
    }

    static void copied(Collection of) {
        if (messages(of) != null) walked(of, of.toArray());
        else walked(of, new Object[0]);
    }

    public static Object[] toArray(Collection of, int place) {
        return Guarded.is(of) ? Guarded.run(of, of::toArray) : walked(of, of.toArray());
    }

    public static Object[] toArray(Collection of, Object[] into, int place) {
        return Guarded.is(of) ? Guarded.run(of, () -> of.toArray(into)) : walked(of, of.toArray(into));
    }

    public static Stream stream(Collection of, int place) { return walked(of, of.stream()); }

    public static Stream parallelStream(Collection of, int place) {
        Trace.parallel();
        return walked(of, of.parallelStream());
    }

    private static Stream walked(Collection of, Stream items) {
        listReceive(of);
        return plain(of) ? items : items.peek(item -> found(of, item));
    }

    private static boolean plain(Collection of) { return Things.of(of) == null && messages(of) == null && !Maps.isView(of); }

    private static Object found(Collection of, Object item) {
        Things.Thing t = Things.of(of);
        if (t != null) t.receiveAll();
        Maps.receiveAll(of);
        return got(of, item, false);
    }

    public static void forEach(Iterable of, Consumer with, int place) {
        if (Guarded.is(of)) {
            Guarded.run(of, () -> { of.forEach(with); return null; });
            return;
        }
        if (!(of instanceof Collection all)) {
            of.forEach(with);
            return;
        }
        listReceive(all);
        all.forEach(plain(all) ? with : item -> with.accept(found(all, item)));
    }

    private static void listSend(Object list) {
        if (list instanceof CopyOnWriteArrayList && several()) Trace.send(LISTS.get(list, l -> Trace.order("CopyOnWriteArrayList")));
    }

    private static void listReceive(Object list) {
        Order order = list instanceof CopyOnWriteArrayList ? LISTS.get(list) : null;
        if (order != null) Trace.receive(order);
    }
}
