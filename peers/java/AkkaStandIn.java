// A small copy of the hot path of Akka 2.6 classic: mailbox, dispatcher, and the restart of a child. It is not Akka: it has no paths,
// no death watch, no event stream, no receive timeouts.

import java.lang.invoke.MethodHandles;
import java.lang.invoke.VarHandle;
import java.util.concurrent.ConcurrentLinkedQueue;
import java.util.concurrent.ForkJoinPool;
import java.util.concurrent.ForkJoinTask;
import java.util.function.Supplier;

// Messages

final class Envelope {
    final Object message;
    final ActorRef sender;
    Envelope(Object message, ActorRef sender) { this.message = message; this.sender = sender; }
}

abstract class SystemMessage { SystemMessage next; }

final class Failed extends SystemMessage {
    final ActorRef child;
    final Throwable cause;
    Failed(ActorRef child, Throwable cause) { this.child = child; this.cause = cause; }
}

final class Recreate extends SystemMessage {
    final Throwable cause;
    Recreate(Throwable cause) { this.cause = cause; }
}

/** It has no stack trace, which makes it cheaper than a failure in Akka. */
final class Failure extends RuntimeException {
    Failure(String message) { super(message, null, false, false); }
}

// Actors

abstract class Actor {
    ActorRef self;
    abstract void receive(Object message);
    void postRestart(Throwable cause) {}
}

final class ActorRef {
    final ActorCell cell;
    ActorRef(ActorCell cell) { this.cell = cell; }
    void tell(Object message, ActorRef sender) { cell.dispatcher.dispatch(cell, new Envelope(message, sender)); }
}

final class ActorCell {
    final Dispatcher dispatcher;
    final Supplier<Actor> props;
    final ActorRef self = new ActorRef(this);
    final ActorRef parent;
    final Mailbox mailbox;
    Actor actor;
    Envelope currentMessage;
    Throwable failed;

    ActorCell(Dispatcher dispatcher, ActorRef parent, Supplier<Actor> props) {
        this.dispatcher = dispatcher;
        this.parent = parent;
        this.props = props;
        this.mailbox = new Mailbox(this);
        create();
    }

    private void create() {
        Actor created = props.get();
        created.self = self;
        actor = created;
    }

    void invoke(Envelope envelope) {
        try {
            currentMessage = envelope;
            actor.receive(envelope.message);
            currentMessage = null;
        } catch (Exception cause) {
            handleInvokeFailure(cause);
        }
    }

    private void handleInvokeFailure(Throwable cause) {
        if (failed == null) {
            mailbox.suspend();
            failed = cause;
            parent.cell.dispatcher.systemDispatch(parent.cell, new Failed(self, cause));
        }
    }

    void systemInvoke(SystemMessage message) {
        if (message instanceof Failed failure) {
            // What Akka's default strategy decides of an exception.
            ActorCell child = failure.child.cell;
            child.dispatcher.systemDispatch(child, new Recreate(failure.cause));
        } else if (message instanceof Recreate recreate) {
            mailbox.resume();
            failed = null;
            currentMessage = null;
            create();
            actor.postRestart(recreate.cause);
        }
    }
}

// The mailbox, as akka.dispatch.Mailbox

final class Mailbox extends ForkJoinTask<Void> {
    static final int OPEN = 0, CLOSED = 1, SCHEDULED = 2, SUSPEND_UNIT = 4;
    static final int SHOULD_SCHEDULE_MASK = 3, SHOULD_NOT_PROCESS_MASK = ~2;
    static final VarHandle STATUS, SYSTEM;
    static {
        try {
            MethodHandles.Lookup lookup = MethodHandles.lookup();
            STATUS = lookup.findVarHandle(Mailbox.class, "status", int.class);
            SYSTEM = lookup.findVarHandle(Mailbox.class, "systemQueue", SystemMessage.class);
        } catch (ReflectiveOperationException error) {
            throw new ExceptionInInitializerError(error);
        }
    }

    final ActorCell actor;
    final ConcurrentLinkedQueue<Envelope> queue = new ConcurrentLinkedQueue<>();
    volatile int status = OPEN;
    volatile SystemMessage systemQueue;

    Mailbox(ActorCell actor) { this.actor = actor; }

    boolean shouldProcessMessage() { return (status & SHOULD_NOT_PROCESS_MASK) == 0; }

    boolean isClosed() { return status == CLOSED; }

    boolean updateStatus(int from, int to) { return STATUS.compareAndSet(this, from, to); }

    void resume() {
        for (;;) {
            int now = status;
            if (now == CLOSED || updateStatus(now, now < SUSPEND_UNIT ? now : now - SUSPEND_UNIT)) return;
        }
    }

    void suspend() {
        for (;;) {
            int now = status;
            if (now == CLOSED || updateStatus(now, now + SUSPEND_UNIT)) return;
        }
    }

    boolean setAsScheduled() {
        for (;;) {
            int now = status;
            if ((now & SHOULD_SCHEDULE_MASK) != OPEN) return false;
            if (updateStatus(now, now | SCHEDULED)) return true;
        }
    }

    void setAsIdle() {
        for (;;) {
            int now = status;
            if (updateStatus(now, now & ~SCHEDULED)) return;
        }
    }

    boolean canBeScheduledForExecution(boolean hasMessageHint, boolean hasSystemMessageHint) {
        return switch (status) {
            case OPEN, SCHEDULED -> hasMessageHint || hasSystemMessageHint || systemQueue != null || !queue.isEmpty();
            case CLOSED -> false;
            default -> hasSystemMessageHint || systemQueue != null;
        };
    }

    private void run() {
        try {
            if (!isClosed()) {
                processAllSystemMessages();
                processMailbox();
            }
        } finally {
            setAsIdle();
            actor.dispatcher.registerForExecution(this, false, false);
        }
    }

    @Override public Void getRawResult() { return null; }

    @Override protected void setRawResult(Void result) {}

    @Override protected boolean exec() {
        run();
        return false;
    }

    private void processMailbox() {
        int left = Math.max(actor.dispatcher.throughput, 1);
        while (shouldProcessMessage()) {
            Envelope next = queue.poll();
            if (next == null) return;
            actor.invoke(next);
            if (Thread.interrupted()) throw new IllegalStateException("interrupted");
            processAllSystemMessages();
            if (left <= 1) return;
            left--;
        }
    }

    void systemEnqueue(SystemMessage message) {
        for (;;) {
            SystemMessage head = systemQueue;
            message.next = head;
            if (SYSTEM.compareAndSet(this, head, message)) return;
        }
    }

    /** Earliest first. As in Akka, it makes its exchange also where nothing is listed. */
    private SystemMessage systemDrain() {
        SystemMessage head;
        do { head = systemQueue; } while (!SYSTEM.compareAndSet(this, head, null));
        SystemMessage reversed = null;
        while (head != null) {
            SystemMessage next = head.next;
            head.next = reversed;
            reversed = head;
            head = next;
        }
        return reversed;
    }

    private void processAllSystemMessages() {
        SystemMessage list = systemDrain();
        while (list != null && !isClosed()) {
            SystemMessage message = list;
            list = list.next;
            message.next = null;
            actor.systemInvoke(message);
            if (list == null && !isClosed()) list = systemDrain();
        }
    }
}

// The dispatcher

final class Dispatcher {
    final int throughput;
    final ForkJoinPool pool;

    Dispatcher(int workers, int throughput) {
        this.throughput = throughput;
        // First in, first out, as Akka's fork-join-executor.
        this.pool = new ForkJoinPool(workers, ForkJoinPool.defaultForkJoinWorkerThreadFactory, Dispatcher::end, true);
    }

    void dispatch(ActorCell receiver, Envelope envelope) {
        receiver.mailbox.queue.add(envelope);
        registerForExecution(receiver.mailbox, true, false);
    }

    void systemDispatch(ActorCell receiver, SystemMessage message) {
        receiver.mailbox.systemEnqueue(message);
        registerForExecution(receiver.mailbox, false, true);
    }

    void registerForExecution(Mailbox mailbox, boolean hasMessageHint, boolean hasSystemMessageHint) {
        if (mailbox.canBeScheduledForExecution(hasMessageHint, hasSystemMessageHint) && mailbox.setAsScheduled()) {
            pool.execute(mailbox);
        }
    }

    private static void end(Thread thread, Throwable error) {
        error.printStackTrace();
        System.exit(1);
    }
}
