package rdrecord;

import java.util.BitSet;
import java.util.HashSet;
import java.util.Set;
import org.objectweb.asm.Handle;
import org.objectweb.asm.Label;
import org.objectweb.asm.MethodVisitor;
import org.objectweb.asm.Opcodes;
import org.objectweb.asm.Type;

/** Rewrites one method. */
final class MethodRewriter extends MethodVisitor implements Opcodes {
    private static final String ANY = "(Ljava/lang/Object;)V";
    private static final String FIELD = "(Ljava/lang/Object;I)V";
    private final Rewriter in;
    private final String name;
    private final boolean isStatic;
    private final boolean monitor;                                       // a synchronized method
    private final boolean task;                                          // the body of a task
    private final boolean old;                                           // a class file that has no class constants
    private final BitSet unused;
    private final Set<Label> interrupted = new HashSet<>();              // where InterruptedException is caught
    private final Label from = new Label();
    private boolean learns;
    private boolean made;                                                // in a constructor: the one above was called
    private int pending;                                                 // objects of the class that are being made
    private int line;
    private int calls;

    MethodRewriter(Rewriter in, MethodVisitor to, int access, String name, String desc, boolean task, int version) {
        super(ASM9, to);
        this.in = in;
        this.name = name;
        this.task = task;
        isStatic = (access & ACC_STATIC) != 0;
        old = version < V1_5;
        monitor = (access & ACC_SYNCHRONIZED) != 0 && !(old && isStatic);
        made = !name.equals("<init>");
        unused = in.unused.getOrDefault(name + desc, new BitSet());
    }

    static void push(MethodVisitor m, int n) {
        if (n >= -1 && n <= 5) m.visitInsn(ICONST_0 + n);
        else if (n >= Byte.MIN_VALUE && n <= Byte.MAX_VALUE) m.visitIntInsn(BIPUSH, n);
        else if (n >= Short.MIN_VALUE && n <= Short.MAX_VALUE) m.visitIntInsn(SIPUSH, n);
        else m.visitLdcInsn(n);
    }

    static void box(MethodVisitor m, Type type) {
        String to = switch (type.getSort()) {
            case Type.INT -> "Integer";
            case Type.LONG -> "Long";
            case Type.SHORT -> "Short";
            case Type.BYTE -> "Byte";
            case Type.CHAR -> "Character";
            case Type.BOOLEAN -> "Boolean";
            case Type.FLOAT -> "Float";
            case Type.DOUBLE -> "Double";
            default -> null;
        };
        if (to == null) return;
        m.visitMethodInsn(INVOKESTATIC, "java/lang/" + to, "valueOf", "(" + type.getDescriptor() + ")Ljava/lang/" + to + ";", false);
    }

    private void call(String owner, String method, String desc) { super.visitMethodInsn(INVOKESTATIC, "rdrecord/" + owner, method, desc, false); }

    private int place() { return Places.number(in.self, in.source, line); }

    private void pushMonitor() {
        if (isStatic) super.visitLdcInsn(Type.getObjectType(in.self));
        else super.visitVarInsn(ALOAD, 0);
    }

    @Override public void visitCode() {
        super.visitCode();
        if (!monitor && !task) return;
        if (monitor) {
            pushMonitor();
            call("Threads", "entered", ANY);
        }
        if (task) {
            super.visitVarInsn(ALOAD, 0);
            call("Tasks", "begin", ANY);
        }
        super.visitLabel(from);
    }

    private void leave() {
        if (task) {
            super.visitVarInsn(ALOAD, 0);
            call("Tasks", "end", ANY);
        }
        if (monitor) {
            pushMonitor();
            call("Threads", "leaving", ANY);
        }
    }

    @Override public void visitMaxs(int stack, int locals) {
        if (monitor || task) {
            Label failed = new Label();
            super.visitTryCatchBlock(from, failed, failed, null);       // the last one, so that those inside come first
            super.visitLabel(failed);
            Object[] known = isStatic ? new Object[0] : new Object[] {in.self};
            super.visitFrame(F_NEW, known.length, known, 1, new Object[] {"java/lang/Throwable"});
            leave();
            super.visitInsn(ATHROW);
        }
        super.visitMaxs(stack, locals);
    }

    @Override public void visitLineNumber(int line, Label at) {
        this.line = line;
        super.visitLineNumber(line, at);
    }

    @Override public void visitTryCatchBlock(Label from, Label to, Label at, String type) {
        if ("java/lang/InterruptedException".equals(type)) interrupted.add(at);
        super.visitTryCatchBlock(from, to, at, type);
    }

    @Override public void visitLabel(Label label) {
        super.visitLabel(label);
        if (interrupted.contains(label)) learns = true;
    }

    private void learn() {
        if (!learns) return;
        learns = false;
        call("Threads", "interrupted", "()V");
    }

    @Override public void visitVarInsn(int op, int slot) {
        learn();
        super.visitVarInsn(op, slot);
    }

    @Override public void visitInsn(int op) {
        learn();
        if (op == MONITORENTER) {
            super.visitInsn(DUP);
            super.visitInsn(op);
            call("Threads", "entered", ANY);
            return;
        }
        if (op == MONITOREXIT) {
            super.visitInsn(DUP);
            call("Threads", "leaving", ANY);
        } else if (op >= IRETURN && op <= RETURN) {
            leave();
            if (name.equals("<clinit>")) {
                push(this.mv, Fields.ofClass(in.self));
                super.visitLdcInsn(in.self);
                call("Fields", "initialized", "(ILjava/lang/String;)V");
            }
        }
        super.visitInsn(op);
    }

    @Override public void visitTypeInsn(int op, String type) {
        if (op == NEW && name.equals("<init>") && (type.equals(in.self) || type.equals(in.above))) pending++;
        super.visitTypeInsn(op, type);
    }

    private boolean is(String owner, String type) { return !owner.startsWith("[") && in.classes.isA(owner, type, in.loader); }

    @Override public void visitMethodInsn(int op, String owner, String method, String desc, boolean itf) {
        calls++;
        if (op == INVOKESPECIAL) special(owner, method, desc, itf);
        else if (op == INVOKESTATIC) ofClass(owner, method, desc, itf);
        else if (!replaced(owner, method, desc)) {
            int stage = desc.endsWith("Stage;") || desc.endsWith("Future;") ? stage(owner, method, desc) : -1;
            if (stage >= 0) stages(owner, method, desc, stage, false);
            else if (owner.startsWith("java/util/stream/") || method.startsWith("parallel")) stream(op, owner, method, desc, itf);
            else if (copies(owner, method, desc)) copy(op, owner, method, desc, itf);
            else if (owner.equals("java/lang/invoke/VarHandle")) handle(op, owner, method, desc);
            else if (owner.equals("java/lang/invoke/MethodHandles$Lookup") && method.endsWith("VarHandle")) findHandle(op, owner, method, desc);
            else super.visitMethodInsn(op, owner, method, desc, itf);
        }
    }

    /** A copy that Java's own code makes of a container: what it finds there was put before. */
    private static boolean copies(String owner, String method, String desc) {
        boolean takes = desc.startsWith("(Ljava/util/Collection;)") || desc.startsWith("(Ljava/util/Map;)");
        return takes && owner.startsWith("java/util/") && (method.equals("<init>") || method.equals("addAll") || method.equals("putAll") || method.equals("copyOf"));
    }

    private void copy(int op, String owner, String method, String desc, boolean itf) {
        super.visitInsn(DUP);
        call("Copies", "copying", ANY);
        super.visitMethodInsn(op, owner, method, desc, itf);
        call("Copies", "copied", "()V");
    }

    private boolean replaced(String owner, String method, String desc) {
        if (method.equals("wait") && (desc.equals("()V") || desc.equals("(J)V") || desc.equals("(JI)V"))) {
            call("Threads", "wait", "(Ljava/lang/Object;" + desc.substring(1));
            return true;
        }
        Rules.Rule rule = Rules.find(in.classes, in.loader, owner, method, desc);
        if (rule == null) return false;
        if (rule.placed()) push(this.mv, unused.get(calls) ? -place() : place());
        super.visitMethodInsn(INVOKESTATIC, rule.owner(), method, rule.desc(), false);
        return true;
    }

    private int stage(String owner, String method, String desc) {
        boolean is = is(owner, "java/util/concurrent/CompletionStage");
        return is ? Futures.number(is(owner, "java/util/concurrent/CompletableFuture") ? "Future" : "Stage", method, desc) : -1;
    }

    private void stages(String owner, String method, String desc, int number, boolean ofClass) {
        for (int i = Type.getArgumentTypes(desc).length; i < 3; i++) super.visitInsn(ACONST_NULL);
        push(this.mv, number);
        String object = "Ljava/lang/Object;";
        if (ofClass) call("Futures", "callStatic", "(" + object.repeat(3) + "I)" + object);
        else call("Futures", "call", "(" + object.repeat(4) + "I)" + object);
        super.visitTypeInsn(CHECKCAST, Type.getReturnType(desc).getInternalName());
    }

    private void stream(int op, String owner, String method, String desc, boolean itf) {
        boolean last = owner.startsWith("java/util/stream/") && !desc.contains(")Ljava/util/stream/") && !method.equals("isParallel");
        if (method.equals("parallel") || method.equals("parallelStream")) call("Streams", "parallel", "()V");
        if (last) call("Streams", "before", "()V");
        super.visitMethodInsn(op, owner, method, desc, itf);
        if (last) call("Streams", "after", "()V");
    }

    private void ofClass(String owner, String method, String desc, boolean itf) {
        if (owner.equals("java/util/concurrent/CompletableFuture")) {
            int stage = Futures.number(owner, method, desc);
            if (stage >= 0) {
                stages(owner, method, desc, stage, true);
                return;
            }
        }
        if (method.equals("invokeAll") && is(owner, "java/util/concurrent/ForkJoinTask")) {
            call("Tasks", method, desc);
            return;
        }
        if (copies(owner, method, desc)) {
            copy(INVOKESTATIC, owner, method, desc, itf);
            return;
        }
        boolean updater = method.equals("newUpdater") && owner.endsWith("FieldUpdater");
        if (updater) {
            super.visitInsn(DUP);
            super.visitLdcInsn(in.self);
            call("Fields", "handleOf", "(Ljava/lang/String;Ljava/lang/String;)V");
        }
        super.visitMethodInsn(INVOKESTATIC, owner, method, desc, itf);
        if (updater) {
            super.visitInsn(DUP);
            call("Fields", "handleIs", ANY);
        }
        if (method.equals("interrupted") && desc.equals("()Z") && owner.equals("java/lang/Thread")) call("Threads", "interrupted", "()V");
    }

    private void special(String owner, String method, String desc, boolean itf) {
        boolean future = false;
        if (method.equals("<init>")) {
            if (name.equals("<init>") && (owner.equals(in.self) || owner.equals(in.above))) {
                if (pending > 0) pending--;
                else made = true;
            }
            future = owner.equals("java/util/concurrent/FutureTask");
            if (future && desc.equals("(Ljava/util/concurrent/Callable;)V")) {
                call("Tasks", "made", "(Ljava/util/concurrent/Callable;)Ljava/util/concurrent/Callable;");
            } else if (future) {
                super.visitInsn(SWAP);
                call("Tasks", "made", "(Ljava/lang/Runnable;)Ljava/lang/Runnable;");
                super.visitInsn(SWAP);
            } else if (owner.equals("java/util/concurrent/CyclicBarrier") && desc.equals("(ILjava/lang/Runnable;)V")) {
                call("Locks", "action", "(Ljava/lang/Runnable;)Ljava/lang/Runnable;");
            }
        } else if (method.equals("start") && desc.equals("()V") && is(owner, "java/lang/Thread")) {
            super.visitInsn(DUP);
            super.visitLdcInsn(Type.getObjectType(owner));
            call("Threads", "starting", "(Ljava/lang/Object;Ljava/lang/Class;)V");
        } else if (method.equals("execute") && desc.equals("(Ljava/lang/Runnable;)V") && is(owner, "java/util/concurrent/Executor")) {
            call("Tasks", "handed", "(Ljava/lang/Runnable;)Ljava/lang/Runnable;");
        } else if (method.equals("wait") && replaced(owner, method, desc)) {
            return;
        }
        if (copies(owner, method, desc)) copy(INVOKESPECIAL, owner, method, desc, itf);
        else super.visitMethodInsn(INVOKESPECIAL, owner, method, desc, itf);
        if (!future) return;
        if (name.equals("<init>") && owner.equals(in.above)) super.visitVarInsn(ALOAD, 0);
        else super.visitInsn(DUP);
        call("Tasks", "madeIs", ANY);
    }

    /** A step on a field by a handle is made in a method of its own, where what it is given is at hand. */
    private void handle(int op, String owner, String method, String desc) {
        Type[] types = Type.getArgumentTypes(desc);
        boolean plain = method.equals("get") || method.equals("set") || method.endsWith("Opaque");
        if (plain || types.length == 0 || types[0].getSort() != Type.OBJECT) {
            super.visitMethodInsn(op, owner, method, desc, false);
            return;
        }
        boolean reads = !method.startsWith("set");
        boolean writes = !method.startsWith("get") || method.startsWith("getAnd");
        String whole = "(L" + owner + ";" + desc.substring(1);
        String helper = in.helper(method + whole, whole, false, m -> {
            if (writes) around(m, "before");
            m.visitVarInsn(ALOAD, 0);
            int slot = 1;
            for (Type type : types) {
                m.visitVarInsn(type.getOpcode(ILOAD), slot);
                slot += type.getSize();
            }
            m.visitMethodInsn(INVOKEVIRTUAL, owner, method, desc, false);
            if (reads) around(m, "after");
            m.visitInsn(Type.getReturnType(desc).getOpcode(IRETURN));
        });
        super.visitMethodInsn(INVOKESTATIC, in.self, helper, whole, in.isInterface);
    }

    private static void around(MethodVisitor m, String when) {
        m.visitVarInsn(ALOAD, 0);
        m.visitVarInsn(ALOAD, 1);
        m.visitMethodInsn(INVOKESTATIC, "rdrecord/Fields", when, "(Ljava/lang/Object;Ljava/lang/Object;)V", false);
    }

    private void findHandle(int op, String owner, String method, String desc) {
        boolean named = desc.startsWith("(Ljava/lang/Class;Ljava/lang/String;");
        if (named) {
            super.visitInsn(SWAP);
            super.visitInsn(DUP);
            super.visitLdcInsn(in.self);
            call("Fields", "handleOf", "(Ljava/lang/String;Ljava/lang/String;)V");
            super.visitInsn(SWAP);
        }
        super.visitMethodInsn(op, owner, method, desc, false);
        if (!named) return;
        super.visitInsn(DUP);
        call("Fields", "handleIs", ANY);
    }

    /** A reference to a method that is rewritten becomes one to a method of this class that calls it. */
    @Override public void visitInvokeDynamicInsn(String called, String desc, Handle by, Object... args) {
        boolean lambda = by.getOwner().equals("java/lang/invoke/LambdaMetafactory") && args.length > 1 && args[1] instanceof Handle;
        if (lambda) {
            Handle to = (Handle) args[1];
            boolean virtual = to.getTag() == H_INVOKEVIRTUAL || to.getTag() == H_INVOKEINTERFACE;
            if (virtual && wanted(to)) {
                Type[] captured = Type.getArgumentTypes(desc);
                String receiver = captured.length > 0 ? captured[0].getDescriptor() : "L" + to.getOwner() + ";";
                String whole = "(" + receiver + to.getDesc().substring(1);
                int op = to.getTag() == H_INVOKEVIRTUAL ? INVOKEVIRTUAL : INVOKEINTERFACE;
                int at = line;
                String helper = in.helper("ref " + to + receiver + at, whole, true, m -> {
                    Label label = new Label();
                    m.visitLabel(label);
                    m.visitLineNumber(at, label);
                    m.visitVarInsn(ALOAD, 0);
                    int slot = 1;
                    for (Type type : Type.getArgumentTypes(to.getDesc())) {
                        m.visitVarInsn(type.getOpcode(ILOAD), slot);
                        slot += type.getSize();
                    }
                    m.visitMethodInsn(op, to.getOwner(), to.getName(), to.getDesc(), to.isInterface());
                    m.visitInsn(Type.getReturnType(to.getDesc()).getOpcode(IRETURN));
                });
                args = args.clone();
                args[1] = new Handle(H_INVOKESTATIC, in.self, helper, whole, in.isInterface);
            }
        }
        super.visitInvokeDynamicInsn(called, desc, by, args);
    }

    private boolean wanted(Handle to) {
        boolean wait = to.getName().equals("wait");
        return wait || Rules.find(in.classes, in.loader, to.getOwner(), to.getName(), to.getDesc()) != null;
    }

    @Override public void visitFieldInsn(int op, String owner, String field, String desc) {
        boolean put = op == PUTFIELD || op == PUTSTATIC;
        Classes.Info of = Classes.ofJava(owner) ? null : in.classes.declaring(owner, field + desc, in.loader);
        if (of == null || !made) {
            super.visitFieldInsn(op, owner, field, desc);
            return;
        }
        Asked.Entry asked = Asked.ofField(of.name, field);
        boolean holds = desc.startsWith("Ljava/util/concurrent/atomic/");
        boolean constant = (of.fields.get(field + desc) & ACC_FINAL) != 0;
        if (asked != null && asked.kind.equals("register") && !holds && !constant) {
            register(op, owner, of.name, field, desc, asked);
            return;
        }
        if (asked != null && put && desc.startsWith("L")) {
            super.visitInsn(DUP);
            push(this.mv, asked.number);
            call("Fields", "named", FIELD);
        }
        int access = of.fields.get(field + desc);
        if ((access & ACC_VOLATILE) != 0) volatileField(op, owner, of.name, field, desc);
        else super.visitFieldInsn(op, owner, field, desc);
        boolean own = name.equals("<clinit>") && of.name.equals(in.self);
        if (op == GETSTATIC && of.initializes && !own) {
            push(this.mv, Fields.ofClass(of.name));
            call("Fields", "used", "(I)V");
        }
    }

    private void volatileField(int op, String owner, String declaring, String field, String desc) {
        int number = Fields.number(declaring, field);
        boolean wide = desc.equals("J") || desc.equals("D");
        switch (op) {
            case GETSTATIC -> {
                super.visitFieldInsn(op, owner, field, desc);
                super.visitInsn(ACONST_NULL);
                push(this.mv, number);
                call("Fields", "read", FIELD);
            }
            case PUTSTATIC -> {
                super.visitInsn(ACONST_NULL);
                push(this.mv, number);
                call("Fields", "writing", FIELD);
                super.visitFieldInsn(op, owner, field, desc);
            }
            case GETFIELD -> {
                super.visitInsn(DUP);
                super.visitFieldInsn(op, owner, field, desc);
                super.visitInsn(wide ? DUP2_X1 : SWAP);
                if (wide) super.visitInsn(POP2);
                push(this.mv, number);
                call("Fields", "read", FIELD);
            }
            default -> {
                super.visitInsn(wide ? DUP2_X1 : DUP2);
                super.visitInsn(wide ? POP2 : POP);
                if (wide) super.visitInsn(DUP);
                push(this.mv, number);
                call("Fields", name.equals("<init>") && declaring.equals(in.self) ? "writingIfKnown" : "writing", FIELD);
                if (wide) {
                    super.visitInsn(DUP_X2);
                    super.visitInsn(POP);
                }
                super.visitFieldInsn(op, owner, field, desc);
            }
        }
    }

    /** A field that is a register: it is read and assigned in a method of its own, in one step with its line. */
    private void register(int op, String owner, String declaring, String field, String desc, Asked.Entry asked) {
        boolean put = op == PUTFIELD || op == PUTSTATIC;
        boolean ofObject = op == GETFIELD || op == PUTFIELD;
        Type type = Type.getType(desc);
        int number = Fields.number(declaring, field);
        String whole = "(" + (ofObject ? "L" + owner + ";" : "") + (put ? desc : "") + "I)" + (put ? "V" : desc);
        int value = ofObject ? 1 : 0;
        int place = put ? value + type.getSize() : value;
        int one = place + 1;
        int read = place + 2;
        String helper = in.helper("field " + op + owner + "." + field, whole, false, m -> {
            object(m, ofObject);
            push(m, number);
            push(m, asked.number);
            m.visitMethodInsn(INVOKESTATIC, "rdrecord/Fields", "begin", "(Ljava/lang/Object;II)Z", false);
            m.visitVarInsn(ISTORE, one);
            if (ofObject) m.visitVarInsn(ALOAD, 0);
            if (put) m.visitVarInsn(type.getOpcode(ILOAD), value);
            m.visitFieldInsn(op, owner, field, desc);
            if (!put) m.visitVarInsn(type.getOpcode(ISTORE), read);
            object(m, ofObject);
            m.visitVarInsn(type.getOpcode(ILOAD), put ? value : read);
            box(m, type);
            push(m, number);
            push(m, asked.number);
            m.visitVarInsn(ILOAD, one);
            m.visitVarInsn(ILOAD, place);
            m.visitMethodInsn(INVOKESTATIC, "rdrecord/Fields", put ? "wasWritten" : "wasRead", "(Ljava/lang/Object;Ljava/lang/Object;IIZI)V", false);
            if (!put) m.visitVarInsn(type.getOpcode(ILOAD), read);
            m.visitInsn(put ? RETURN : type.getOpcode(IRETURN));
        });
        push(this.mv, place());
        super.visitMethodInsn(INVOKESTATIC, in.self, helper, whole, in.isInterface);
    }

    private static void object(MethodVisitor m, boolean ofObject) {
        if (!ofObject) {
            m.visitInsn(ACONST_NULL);
            return;
        }
        m.visitVarInsn(ALOAD, 0);
        m.visitInsn(DUP);                                                // none has no field: that is told before a step begins
        m.visitMethodInsn(INVOKESTATIC, "java/util/Objects", "requireNonNull", "(Ljava/lang/Object;)Ljava/lang/Object;", false);
        m.visitInsn(POP);
    }
}
