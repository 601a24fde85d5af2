// java JavaPeer WORKLOAD WORKERS THROUGHPUT TIMES
// The six workloads on the stand-in for Akka. It runs the workload TIMES times in this process, and prints the seconds of the last run and
// how many messages were handled.

import java.util.ArrayList;
import java.util.List;
import java.util.Locale;
import java.util.concurrent.CountDownLatch;

public final class JavaPeer {
    record Message(int kind, long value) {}

    /** What an actor ended with, and what it has to end with. */
    static final class End {
        final long wantedSum, wantedCount, wantedRestarts;
        long sum, count, restarts;

        End(long wantedSum, long wantedCount, long wantedRestarts) {
            this.wantedSum = wantedSum;
            this.wantedCount = wantedCount;
            this.wantedRestarts = wantedRestarts;
        }

        boolean isRight() { return sum == wantedSum && count == wantedCount && restarts == wantedRestarts; }
    }

    static final class Counter extends Actor {
        final End end;
        final CountDownLatch latch;
        long sum, count;

        Counter(End end, CountDownLatch latch) { this.end = end; this.latch = latch; }

        @Override void receive(Object message) {
            sum += ((Message) message).value;
            if (++count == end.wantedCount) {
                end.sum = sum;
                end.count = count;
                latch.countDown();
            }
        }
    }

    static final class Teller extends Actor {
        final End end;
        final CountDownLatch latch;
        final ActorRef[] others;
        long count;

        Teller(End end, CountDownLatch latch, ActorRef... others) { this.end = end; this.latch = latch; this.others = others; }

        @Override void receive(Object message) {
            for (ActorRef other : others) other.tell(message, self);
            if (++count == end.wantedCount) {
                end.count = count;
                latch.countDown();
            }
        }
    }

    static final class Driver extends Actor {
        final End end;
        final CountDownLatch latch;
        final ActorRef child;
        long count;

        Driver(End end, CountDownLatch latch, ActorRef child) { this.end = end; this.latch = latch; this.child = child; }

        @Override void receive(Object message) {
            long value = ((Message) message).value;
            for (int i = 0; i < 9; i++) child.tell(new Message(1, value), self);
            child.tell(new Message(2, value), self);
            if (++count == end.wantedCount) {
                end.count = count;
                latch.countDown();
            }
        }
    }

    static final class Child extends Actor {
        final End end;
        final CountDownLatch latch;
        long sum;

        Child(End end, CountDownLatch latch) { this.end = end; this.latch = latch; }

        @Override void receive(Object message) {
            Message told = (Message) message;
            end.count++;
            if (told.kind == 2) throw new Failure("7");
            sum += told.value;
        }

        @Override void postRestart(Throwable cause) {
            end.sum = sum;
            if (++end.restarts == end.wantedRestarts) latch.countDown();
        }
    }

    static final class Parent extends Actor {
        @Override void receive(Object message) {}
    }

    /** The actors of a workload, and what each outside sender sends. */
    static final class Workload {
        final Dispatcher dispatcher;
        final List<End> ends = new ArrayList<>();
        final List<Runnable> jobs = new ArrayList<>();
        final CountDownLatch latch;

        Workload(String name, Dispatcher dispatcher) {
            this.dispatcher = dispatcher;
            this.latch = new CountDownLatch(actors(name));
            make(name);
        }

        static int actors(String name) {
            return switch (name) {
                case "spread", "chain" -> 63;
                case "fan-out" -> 17;
                case "restart" -> 2;
                default -> 1;
            };
        }

        private void make(String name) {
            switch (name) {
                case "count" -> {
                    ActorRef counter = counter(1_000_000, 1);
                    jobs.add(() -> send(counter, 1, 1_000_000));
                }
                case "fan-in" -> {
                    ActorRef counter = counter(1_000_000, 1);
                    for (int sender = 0; sender < 4; sender++) jobs.add(() -> send(counter, 1, 250_000));
                }
                case "spread" -> spread();
                case "chain" -> {
                    ActorRef first = counter(20_000, 3);
                    for (int i = 0; i < 62; i++) first = teller(20_000, first);
                    ActorRef to = first;
                    jobs.add(() -> send(to, 3, 20_000));
                }
                case "fan-out" -> {
                    ActorRef[] leaves = new ActorRef[16];
                    for (int i = 0; i < 16; i++) leaves[i] = counter(50_000, 3);
                    ActorRef root = teller(50_000, leaves);
                    jobs.add(() -> send(root, 3, 50_000));
                }
                case "restart" -> restart();
                default -> throw new IllegalArgumentException("no workload " + name);
            }
        }

        private void spread() {
            ActorRef[] counters = new ActorRef[63];
            for (int i = 0; i < 63; i++) counters[i] = counter(16 * 992, 1);
            for (int number = 0; number < 4; number++) {
                int sender = number;
                jobs.add(() -> {
                    for (int place = 0; place < 4 * 63; place++) send(counters[(16 * sender + place) % 63], 1, 992);
                });
            }
        }

        private void restart() {
            ActorRef parent = new ActorCell(dispatcher, null, Parent::new).self;
            End childEnd = end(0, 100_000, 10_000), driverEnd = end(0, 10_000, 0);
            ActorRef child = new ActorCell(dispatcher, parent, () -> new Child(childEnd, latch)).self;
            ActorRef driver = new ActorCell(dispatcher, null, () -> new Driver(driverEnd, latch, child)).self;
            jobs.add(() -> send(driver, 3, 10_000));
        }

        private End end(long sum, long count, long restarts) {
            End end = new End(sum, count, restarts);
            ends.add(end);
            return end;
        }

        private ActorRef counter(long count, long value) {
            End end = end(count * value, count, 0);
            return new ActorCell(dispatcher, null, () -> new Counter(end, latch)).self;
        }

        private ActorRef teller(long count, ActorRef... others) {
            End end = end(0, count, 0);
            return new ActorCell(dispatcher, null, () -> new Teller(end, latch, others)).self;
        }

        static void send(ActorRef to, long value, long times) {
            for (long i = 0; i < times; i++) to.tell(new Message(1, value), null);
        }

        /** The seconds from the first send until all is handled. */
        double run() throws InterruptedException {
            CountDownLatch ready = new CountDownLatch(jobs.size()), start = new CountDownLatch(1);
            for (Runnable job : jobs) {
                new Thread(() -> {
                    ready.countDown();
                    try {
                        start.await();
                    } catch (InterruptedException interrupted) {
                        return;
                    }
                    job.run();
                }).start();
            }
            ready.await();
            long began = System.nanoTime();
            start.countDown();
            latch.await();
            return (System.nanoTime() - began) * 1e-9;
        }
    }

    public static void main(String[] args) throws InterruptedException {
        Dispatcher dispatcher = new Dispatcher(Integer.parseInt(args[1]), Integer.parseInt(args[2]));
        double seconds = 0;
        long messages = 0;
        int times = Integer.parseInt(args[3]);
        for (int run = 0; run < times; run++) {
            if (run > 0) System.gc();
            Workload workload = new Workload(args[0], dispatcher);
            seconds = workload.run();
            messages = workload.ends.stream().mapToLong(end -> end.count).sum();
            if (!workload.ends.stream().allMatch(End::isRight)) {
                System.err.println("an actor ended wrongly");
                System.exit(1);
            }
        }
        System.out.println(String.format(Locale.ROOT, "%.6f %d", seconds, messages));
        System.exit(0);
    }
}
