package rdrecord;

/** A lock of the trace: one of the program, or one that the program doesn't have and that tells an order. */
final class Order {
    final String name;
    final boolean paired;                         // it stands for more than one lock, so nobody holds it
    volatile int version;                         // how many of its releases were written
    Lane owner;                                   // who holds it, guarded by the lock itself
    int depth;
    long count;                                   // of acquires, for logs, guarded by this

    Order(String name, boolean paired) {
        this.name = name;
        this.paired = paired;
    }
}
