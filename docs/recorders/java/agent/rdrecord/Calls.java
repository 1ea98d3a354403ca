package rdrecord;

/** What the rewritten code calls in the methods of a class that the file of objects names: a call of one is a call of the trace. */
public final class Calls {
    private Calls() { }

    private record Step(Things.Thing of, boolean one) { }

    /** Begins a step; one within a step of the same thread on the same object is part of that one, and is null. */
    public static Object begin(Object of, int asked) {
        Things.Thing t = Things.ofClass(of, Asked.of(asked));
        return t.step.isHeldByCurrentThread() ? null : new Step(t, t.begin());
    }

    public static void done(Object begun, String method, Object[] args, Object result) {
        if (begun == null) return;
        Step step = (Step) begun;
        try {
            tell(step.of(), method, args, Values.content(result));
        } finally {
            step.of().end(step.one());
        }
    }

    /** A call that threw an exception has it for its result. */
    public static void failed(Object begun, String method, Object[] args, Throwable why) {
        done(begun, method, args, why.getClass().getSimpleName());
    }

    private static void tell(Things.Thing t, String method, Object[] args, String result) {
        StringBuilder text = new StringBuilder(method);
        boolean keyed = t.kind.equals("dictionary") || t.kind.equals("set");
        for (int i = 0; i < args.length && i < 6; i++) {
            text.append(' ').append(i == 0 && keyed ? t.key(args[i]) : Values.content(args[i]));
        }
        t.callFrom(text + " -> " + result);
    }
}
