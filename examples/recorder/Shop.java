import java.io.IOException;
import java.io.StringReader;
import java.nio.file.Path;
import java.util.ArrayList;
import java.util.HashMap;
import java.util.Iterator;
import java.util.List;
import java.util.Map;
import java.util.Set;
import java.util.TreeMap;
import java.util.concurrent.ConcurrentHashMap;
import java.util.concurrent.ExecutorService;
import java.util.concurrent.Executors;
import java.util.concurrent.Future;
import java.util.concurrent.atomic.AtomicInteger;
import java.util.concurrent.locks.Lock;
import java.util.concurrent.locks.ReentrantLock;

/**
 * A program to be recorded: three clerks and a stock keeper, each a thread, over shared lists, maps and locks. In some
 * rounds a clerk makes a mistake, in a line that says 'planted'. At the end it prints how often each rule was broken.
 *
 * <p>Words: {@code [--rounds N] [--deaths] FILE}; {@code --folder FOLDER} for a script of each rule, or
 * {@code --threads FOLDER} for a script of each thread.
 */
public final class Shop {
  private final Calls calls;
  private final int rounds;
  private final ExecutorService stock = Executors.newSingleThreadExecutor(job -> new Thread(job, "stock"));
  private final List<String> orders = new ArrayList<>(List.of("tea", "rice"));
  private final Map<String, Integer> prices = new HashMap<>(Map.of("tea", 3, "rice", 2, "salt", 1));
  private final Set<String> names = prices.keySet();
  private final Lock till = new ReentrantLock();
  private final Map<String, AtomicInteger> planted = new ConcurrentHashMap<>();

  private Shop(Recorder recorder, int rounds) {
    this.calls = new Calls(recorder);
    this.rounds = rounds;
  }

  public static void main(String[] words) throws Exception {
    int rounds = 30;
    boolean deaths = false;
    String form = "";
    Path path = null;
    for (int k = 0; k < words.length; k++) {
      switch (words[k]) {
        case "--rounds": rounds = Integer.parseInt(words[++k]); break;
        case "--deaths": deaths = true; break;
        case "--folder":
        case "--threads": form = words[k]; break;
        default: path = Path.of(words[k]);
      }
    }
    Recorder recorder = (form.equals("--folder") ? Recorder.toFolder(path)
        : form.equals("--threads") ? Recorder.toThreads(path) : Recorder.toFile(path)).withPlaces(Calls.class);
    if (deaths) {
      recorder.withDeaths();
    }
    try (recorder) {
      new Shop(recorder, rounds).open();
    }
    if (recorder.dropped() > 0) {
      System.out.println("dropped " + recorder.dropped());
    }
  }

  private void open() throws InterruptedException {
    List<Thread> clerks = new ArrayList<>();
    for (int number = 1; number <= 3; number++) {
      int own = number;
      clerks.add(new Thread(() -> work(own), "clerk-" + number));
    }
    clerks.forEach(Thread::start);
    for (Thread clerk : clerks) {
      clerk.join();
    }
    stock.shutdown();
    new TreeMap<>(planted).forEach((rule, count) -> System.out.println(rule + " " + count));
  }

  private void work(int clerk) {
    try {
      for (int round = 1; round <= rounds; round++) {
        serve("order " + clerk + "." + round);
        if (round % 10 == clerk) {
          changeWhileReading();
          raiseWhileReading();
        }
        if (round % 6 == clerk) {
          takeWithoutAsking();
          giveBackTwice();
        }
        read("a receipt", round % 5 == clerk);
      }
    } catch (Exception error) {
      throw new IllegalStateException(error);
    }
  }

  /** A round as it should be: each list and map is read and changed under its own lock. */
  private void serve(String order) {
    calls.lock(till);
    try {
      calls.add(orders, order);
      synchronized (orders) {
        for (Iterator<String> each = calls.iterator(orders); calls.hasNext(each);) {
          calls.next(each);
        }
        if (orders.size() > 5) {
          orders.clear();
        }
      }
      synchronized (prices) {
        for (Iterator<String> each = calls.iterator(calls.keySet(prices)); calls.hasNext(each);) {
          calls.next(each);
        }
        calls.put(prices, "tea", prices.get("tea") + 1);
      }
    } finally {
      calls.unlock(till);
    }
  }

  /** A list that was filled before is changed by the stock keeper while a clerk goes over it. */
  private void changeWhileReading() throws Exception {
    List<String> shelf = new ArrayList<>();
    calls.add(shelf, "tea");
    calls.add(shelf, "rice");
    Iterator<String> each = calls.iterator(shelf);
    calls.hasNext(each);
    calls.next(each);
    Future<?> delivery = stock.submit(() -> calls.add(shelf, "salt"));
    delivery.get();
    calls.hasNext(each);
    expect(RuntimeException.class, () -> calls.next(each)); // planted: CollectionChanged
    plant("CollectionChanged");
  }

  /** A map that was filled before is changed while a clerk goes over its keys. */
  private void raiseWhileReading() throws Exception {
    Map<String, Integer> list = new HashMap<>();
    calls.put(list, "tea", 3);
    calls.put(list, "rice", 2);
    calls.keySet(list);
    Iterator<String> each = calls.iterator(calls.keySet(list));
    calls.hasNext(each);
    calls.next(each);
    Future<?> raise = stock.submit(() -> calls.put(list, "salt", 1));
    raise.get();
    calls.hasNext(each);
    expect(RuntimeException.class, () -> calls.next(each)); // planted: MapChanged
    plant("MapChanged");
  }

  private void takeWithoutAsking() throws Exception {
    Iterator<String> each = calls.iterator(new ArrayList<>(List.of("the only one")));
    calls.next(each); // planted: HasNext
    plant("HasNext");
  }

  private void giveBackTwice() throws Exception {
    Lock drawer = new ReentrantLock();
    calls.lock(drawer);
    calls.lock(drawer);
    calls.unlock(drawer);
    calls.unlock(drawer);
    expect(IllegalMonitorStateException.class, () -> calls.unlock(drawer)); // planted: HeldLock
    plant("HeldLock");
  }

  private void read(String text, boolean late) throws Exception {
    StringReader reader = new StringReader(text);
    while (calls.read(reader) >= 0) {
      Thread.yield();
    }
    calls.close(reader);
    if (late) {
      expect(IOException.class, () -> calls.read(reader)); // planted: ClosedReader
      plant("ClosedReader");
    }
  }

  private void plant(String rule) {
    planted.computeIfAbsent(rule, unused -> new AtomicInteger()).incrementAndGet();
  }

  /** What may fail so, and does. */
  private interface Mistake {
    void happen() throws Exception;
  }

  private static void expect(Class<? extends Exception> kind, Mistake mistake) throws Exception {
    try {
      mistake.happen();
    } catch (Exception error) {
      if (kind.isInstance(error)) {
        return;
      }
      throw error;
    }
    throw new IllegalStateException("no " + kind.getSimpleName());
  }
}
