// Records what threads do on a queue of java.util.concurrent: `java record.java >FILE`. Copy `Recorder`, and
// record every call. A queue has no ends; if your channel has, every clone and every drop of an end is a call.
// Each `next` of an iterator is a `recv`. Each arm of a selection is a future, `send_async` or `recv_async`, of
// a recorder of its own; those that lost return `dropped`.
import java.util.ArrayList;
import java.util.List;
import java.util.TreeMap;
import java.util.concurrent.ArrayBlockingQueue;
import java.util.concurrent.Callable;
import java.util.concurrent.atomic.AtomicInteger;
import java.util.function.Function;

class Main {
    static final int MESSAGES = 5;

    public static void main(String[] arguments) throws Exception {
        var queue = new ArrayBlockingQueue<Integer>(2);
        var threads = new ArrayList<Thread>();
        for (int number = 1; number <= 2; number++) {
            int first = 10 * number;
            var sender = new Recorder("s" + number);
            threads.add(new Thread(() -> send(queue, first, sender)));
        }
        threads.forEach(Thread::start);
        var here = new Recorder("r");
        for (int got = 0; got < 2 * MESSAGES; got++) {
            here.call("recv", queue::take, message -> "got " + message);
        }
        here.call("try_recv", queue::poll, message -> message == null ? "empty" : "got " + message);
        for (var it : threads) {
            it.join();
        }
        System.out.println(Recorder.recording("bounded 2"));
    }

    static void send(ArrayBlockingQueue<Integer> queue, int first, Recorder here) {
        for (int at = 0; at < MESSAGES; at++) {
            int message = first + at;
            here.call("send " + message, () -> { queue.put(message); return true; }, sent -> "sent");
        }
    }
}

/** One for each thread. */
class Recorder {
    private static final AtomicInteger NEXT = new AtomicInteger();
    private static final List<Recorder> ALL = new ArrayList<>();
    private final String name;
    private final TreeMap<Integer, String> events = new TreeMap<>();

    Recorder(String name) {
        this.name = name;
        synchronized (ALL) {
            ALL.add(this);
        }
    }

    /** Makes a call, and records it with what `answer` says of its result. */
    <T> T call(String text, Callable<T> make, Function<T, String> answer) {
        try {
            events.put(NEXT.getAndIncrement(), name + ": " + text);
            T result = make.call();
            events.put(NEXT.getAndIncrement(), name + " -> " + answer.apply(result));
            return result;
        } catch (Exception why) {
            throw new RuntimeException(why);
        }
    }

    /** The recording, once all threads have ended. */
    static String recording(String opening) {
        var events = new TreeMap<Integer, String>();
        ALL.forEach(it -> events.putAll(it.events));
        return opening + "\n" + String.join("\n", events.values());
    }
}
