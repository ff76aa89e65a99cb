import java.io.BufferedWriter;
import java.io.Closeable;
import java.io.IOException;
import java.lang.ref.Reference;
import java.lang.ref.ReferenceQueue;
import java.lang.ref.WeakReference;
import java.nio.charset.StandardCharsets;
import java.nio.file.FileAlreadyExistsException;
import java.nio.file.Files;
import java.nio.file.Path;
import java.nio.file.StandardOpenOption;
import java.util.Collection;
import java.util.Comparator;
import java.util.HashMap;
import java.util.HashSet;
import java.util.LinkedHashMap;
import java.util.List;
import java.util.Map;
import java.util.Objects;
import java.util.Set;
import java.util.concurrent.ConcurrentHashMap;
import java.util.concurrent.atomic.AtomicLong;
import java.util.concurrent.atomic.AtomicReferenceArray;
import java.util.function.Predicate;
import java.util.stream.Collectors;
import java.util.stream.IntStream;
import java.util.stream.Stream;

/**
 * Writes what a program does as scripts for jmop, a line for each event: one script, one for each rule, or one for
 * each thread. It needs Java 11 and no library. Give it the package of your program.
 *
 * <p>An object is named by its class and a number that no other object gets. It is found again by identity, so its
 * {@code equals} and {@code hashCode} are never called, and it isn't kept from being collected.
 *
 * <p>Call {@link #event} while you hold the lock that guards the object: then the lines stand in the order in which
 * things happened. The recorder calls nothing of yours while it holds a lock.
 *
 * <p>Close it at the end, by a shutdown hook where the program ends by {@code System.exit}: a script that isn't closed
 * may lack its last lines, and those for each thread are written by {@link #close} alone.
 */
public final class Recorder implements Closeable {
  /** What jmop takes in one command. */
  private static final int MOST_SCRIPTS = 16;
  private static final int MOST_STEPS = 200_000;
  private static final int MOST_OBJECTS = 65_536;
  private static final int MOST_NOTES = 65_536;
  private static final int MOST_BYTES = 4_194_304;

  private final Output output;
  private final Map<Key, Named> names = new ConcurrentHashMap<>();
  private final AtomicLong objects = new AtomicLong();
  private final ReferenceQueue<Object> collected = new ReferenceQueue<>();
  private final StackWalker stack = StackWalker.getInstance(StackWalker.Option.RETAIN_CLASS_REFERENCE);
  private volatile Set<Class<?>> hooks;
  private volatile boolean deaths;

  private Recorder(Output output) {
    this.output = output;
  }

  /** A recorder that writes all rules' events into one script, in the order in which {@link #event} was called. */
  public static Recorder toFile(Path file) {
    return new Recorder(new AtOnce(file, false));
  }

  /** A recorder that writes such a script RULE.txt for each rule into a folder that is there. */
  public static Recorder toFolder(Path folder) {
    return new Recorder(new AtOnce(folder, true));
  }

  /**
   * A recorder that writes a script THREAD.txt for each name of a thread into a folder, all for one command. What
   * isn't an ASCII letter, a digit, {@code _} or {@code -} becomes {@code _} in the name. Of more than 16 names the
   * first 15 have a script each, and {@code others.txt} is for the others.
   *
   * <p>Lines {@code post} and {@code wait} keep two events of a rule in the order in which {@link #event} was called
   * where they name a common object, or objects that are joined: by an event of the rule that names both, before them
   * or behind, or each with a third that is joined with the other. An event without objects joins all of its rule. A
   * death stands behind all events that name its object.
   *
   * <p>Up to 200,000 lines are kept in memory until the recorder is closed. Close it when no thread records any more.
   *
   * @param folder where the scripts are written; it is made where there is none
   * @param wholeRules the rules of which all events are kept in order, since objects may break them that aren't joined
   * @throws IOException if the folder can't be made, or isn't empty: its files would be taken for scripts of threads
   */
  public static Recorder toThreads(Path folder, String... wholeRules) throws IOException {
    Files.createDirectories(folder);
    try (Stream<Path> inside = Files.list(folder)) {
      if (inside.findAny().isPresent()) {
        throw new FileAlreadyExistsException(folder.toString(), null, "the folder isn't empty");
      }
    }
    return new Recorder(new ByThread(folder, new HashSet<>(List.of(wholeRules))));
  }

  /** Also writes a line {@code death} for each object that was collected, at the next event or at the end. */
  public Recorder withDeaths() {
    deaths = true;
    return this;
  }

  /**
   * Also writes a comment behind each event: the thread, and the file and line of the call. The classes that call the
   * recorder for others are passed over.
   */
  public Recorder withPlaces(Class<?>... hooks) {
    Set<Class<?>> all = new HashSet<>(List.of(hooks));
    all.add(Recorder.class);
    this.hooks = all;
    return this;
  }

  /**
   * Writes an event. Its name is {@code RULE.EVENT}, and its objects, none of them null, stand in the order of the
   * rule's parameters, of which those are left out that the event doesn't have.
   */
  public void event(String name, Object... of) {
    if (name.indexOf('.') < 0) {
      throw new IllegalArgumentException("an event is named RULE.EVENT, and not " + name);
    }
    writeDeaths();
    StringBuilder text = new StringBuilder(name);
    Named[] named = new Named[of.length];
    for (int k = 0; k < of.length; k++) {
      named[k] = nameOf(of[k]);
      text.append(' ').append(named[k].name);
    }
    if (hooks != null) {
      text.append(" # ").append(place());
    }
    output.write(new Line(Thread.currentThread().getName(), text.append('\n').toString(), named));
    Reference.reachabilityFence(of);
  }

  /** How many lines had no room, since a command takes only so much; exact once the recorder is closed. */
  public long dropped() {
    return output.dropped();
  }

  /** Ends the scripts. Where one couldn't be written, it tells so now, and no event did. */
  @Override
  public void close() throws IOException {
    writeDeaths();
    output.close();
  }

  private String place() {
    String where = stack.walk(frames -> frames
        .filter(frame -> !hooks.contains(frame.getDeclaringClass().getNestHost()))
        .findFirst()
        .map(frame -> folderOf(frame.getDeclaringClass()) + frame.getFileName() + ":" + frame.getLineNumber())
        .orElse("unknown:0"));
    return plain(Thread.currentThread().getName()) + " " + plain(where);
  }

  private static String plain(String text) {
    return text.replaceAll("[^!-~]", "_");
  }

  private static String folderOf(Class<?> type) {
    String name = type.getPackageName();
    return name.isEmpty() ? "" : name.replace('.', '/') + "/";
  }

  private Named nameOf(Object object) {
    return names.computeIfAbsent(new Key(object, collected),
        unused -> new Named(kindOf(object) + "-" + objects.incrementAndGet()));
  }

  private static String kindOf(Object object) {
    String name = object.getClass().getSimpleName().replaceAll("[^A-Za-z0-9_$]", "");
    return name.length() > 100 ? name.substring(0, 100) : name.isEmpty() ? "object" : name;
  }

  /** An object's last line: it was collected, so no line that names it can follow. */
  private void writeDeaths() {
    for (Reference<?> gone = collected.poll(); gone != null; gone = collected.poll()) {
      Named named = names.remove(gone);
      if (deaths && named != null) {
        output.write(new Line(null, "death " + named.name + "\n", named));
      }
    }
  }

  /** An event of a thread, or a death, which is of none. */
  private static final class Line {
    final String thread;
    final String text;
    final Named[] objects;
    Group group;

    Line(String thread, String text, Named... objects) {
      this.thread = thread;
      this.text = text;
      this.objects = objects;
    }

    boolean isDeath() {
      return thread == null;
    }

    String rule() {
      return text.substring(0, text.indexOf('.'));
    }

    /** How many of its objects are so. */
    long count(Predicate<Named> so) {
      return Stream.of(objects).distinct().filter(so).count();
    }

    Stream<Group> groups() {
      return isDeath() ? objects[0].groups.values().stream() : Stream.of(group);
    }
  }

  /** Where lines go. Any thread may write. */
  private interface Output extends Closeable {
    void write(Line line);

    long dropped();
  }

  /** One script, or one for each rule, each for a command of its own. They are written as things happen. */
  private static final class AtOnce implements Output {
    private final Path path;
    private final boolean eachRule;
    private final Map<String, Script> scripts = new HashMap<>();
    private boolean closed;
    private long dropped;
    private IOException failure;

    AtOnce(Path path, boolean eachRule) {
      this.path = path;
      this.eachRule = eachRule;
    }

    @Override
    public synchronized void write(Line line) {
      if (closed) {
        dropped++;
      } else if (line.isDeath()) {
        line.objects[0].scripts.forEach(script -> write(script, line));
      } else {
        write(scripts.computeIfAbsent(eachRule ? line.rule() : "", this::open), line);
      }
    }

    private Script open(String rule) {
      try {
        Path file = eachRule ? path.resolve(rule + ".txt") : path;
        return new Script(0, Files.newBufferedWriter(file, StandardCharsets.US_ASCII));
      } catch (IOException error) {
        failure = failure == null ? error : failure;
        return new Script(0, null);
      }
    }

    /** Once a line had no room in a script, none follows. */
    private void write(Script script, Line line) {
      long fresh = line.count(one -> !one.scripts.contains(script));
      script.full |= failure != null || script.steps == MOST_STEPS || script.objects + fresh > MOST_OBJECTS
          || script.bytes + line.text.length() > MOST_BYTES;
      if (script.full) {
        dropped++;
        return;
      }
      script.objects += fresh;
      try {
        script.step(line);
      } catch (IOException error) {
        failure = error;
      }
    }

    @Override
    public synchronized long dropped() {
      return dropped;
    }

    @Override
    public synchronized void close() throws IOException {
      closed = true;
      endAll(scripts.values(), failure);
    }
  }

  /**
   * A script for each thread, all for one command. Lines are numbered as they come, without a lock. Which objects are
   * joined is known at the end alone, so they are written then, in the order of their numbers.
   *
   * <p>Before a line is written, its script waits for that of the last line of the same group, unless it has seen that
   * line already. The other one posts behind all that was written of it so far; this tells, too, of all that it has
   * seen itself. So there is at most one post for each turn from one script to another.
   */
  private static final class ByThread implements Output {
    private static final int NOTE_BYTES = "post 65536\n".length();

    private final Path folder;
    private final Set<String> wholeRules;
    private final AtomicLong numbers = new AtomicLong();
    private final AtomicReferenceArray<Line> lines = new AtomicReferenceArray<>(MOST_STEPS);
    private final Map<String, Script> scripts = new HashMap<>();
    private boolean closed;
    private volatile int written = MOST_STEPS;
    private long objects;
    private int posts;
    private int waits;

    ByThread(Path folder, Set<String> wholeRules) {
      this.folder = folder;
      this.wholeRules = wholeRules;
    }

    @Override
    public void write(Line line) {
      long number = numbers.getAndIncrement();
      if (number < MOST_STEPS) {
        lines.set((int) number, line);
      }
    }

    @Override
    public long dropped() {
      return Math.max(0, numbers.get() - written);
    }

    @Override
    public synchronized void close() throws IOException {
      if (closed) {
        return;
      }
      closed = true;
      List<Line> kept = IntStream.range(0, MOST_STEPS).mapToObj(lines::get).takeWhile(Objects::nonNull)
          .collect(Collectors.toList());
      join(kept);
      IOException failure = null;
      try {
        written = writeAll(kept, filesOf(kept));
      } catch (IOException error) {
        failure = error;
      }
      endAll(scripts.values(), failure);
    }

    /** Puts into one group what has to stay in order. */
    private void join(List<Line> lines) {
      Map<String, Group> whole = new HashMap<>();
      for (Line line : lines) {
        if (!line.isDeath() && line.objects.length == 0) {
          wholeRules.add(line.rule());
        }
      }
      for (Line line : lines) {
        if (!line.isDeath()) {
          String rule = line.rule();
          line.group = wholeRules.contains(rule) ? whole.computeIfAbsent(rule, unused -> new Group()) : null;
          for (Named object : line.objects) {
            Group group = object.groups.computeIfAbsent(rule, unused -> new Group());
            line.group = line.group == null ? group : line.group.join(group);
          }
        }
      }
    }

    /** The file of each thread. */
    private static Map<String, String> filesOf(List<Line> lines) {
      Map<String, String> files = new LinkedHashMap<>();
      for (Line line : lines) {
        if (!line.isDeath()) {
          files.computeIfAbsent(line.thread, ByThread::fileOf);
        }
      }
      List<String> all = files.values().stream().distinct().collect(Collectors.toList());
      if (all.size() > MOST_SCRIPTS) {
        Set<String> own = Set.copyOf(all.subList(0, MOST_SCRIPTS - 1));
        files.replaceAll((thread, file) -> own.contains(file) ? file : "others.txt");
      }
      return files;
    }

    private static String fileOf(String thread) {
      String name = thread.replaceAll("[^A-Za-z0-9_-]", "_");
      return (name.length() > 100 ? name.substring(0, 100) : name.isEmpty() ? "_" : name) + ".txt";
    }

    /** Writes the lines up to the first one that has no room, and tells how many these are. */
    private int writeAll(List<Line> lines, Map<String, String> files) throws IOException {
      for (int number = 0; number < lines.size(); number++) {
        Line line = lines.get(number);
        List<Group> groups = line.groups().map(Group::root).distinct()
            .sorted(Comparator.comparing((Group group) -> group.number).reversed()).collect(Collectors.toList());
        if (groups.isEmpty()) {
          continue; // a death of what no line names
        }
        Script script = line.isDeath() ? groups.get(0).script : scriptOf(files.get(line.thread));
        objects += line.count(one -> one.scripts.isEmpty());
        if (objects > MOST_OBJECTS || posts + waits + 2 * groups.size() > MOST_NOTES
            || script.bytes + line.text.length() + (groups.size() + 1) * NOTE_BYTES > MOST_BYTES) {
          return number;
        }
        for (Group group : groups) {
          if (group.script != null && script.seen[group.script.number] < group.steps) {
            await(script, group.script);
          }
        }
        script.step(line);
        for (Group group : groups) {
          group.number = number;
          group.script = script;
          group.steps = script.steps;
        }
      }
      return lines.size();
    }

    private Script scriptOf(String file) throws IOException {
      Script script = scripts.get(file);
      if (script == null) {
        script = new Script(scripts.size(), Files.newBufferedWriter(folder.resolve(file), StandardCharsets.US_ASCII,
            StandardOpenOption.CREATE_NEW, StandardOpenOption.WRITE));
        scripts.put(file, script);
      }
      return script;
    }

    /** What the one script writes next comes behind all that is written of the other. */
    private void await(Script script, Script other) throws IOException {
      if (other.posted != other.steps) {
        other.posted = other.steps;
        other.post = ++posts;
        other.write("post " + other.post + "\n");
      }
      waits++;
      script.write("wait " + other.post + "\n");
      for (int k = 0; k < MOST_SCRIPTS; k++) {
        script.seen[k] = Math.max(script.seen[k], other.seen[k]);
      }
    }
  }

  private static void endAll(Collection<Script> scripts, IOException failure) throws IOException {
    for (Script script : scripts) {
      try {
        script.end();
      } catch (IOException error) {
        failure = failure == null ? error : failure;
      }
    }
    if (failure != null) {
      throw failure;
    }
  }

  /** A script that is written, and how much of it there is. */
  private static final class Script {
    final int number;
    final BufferedWriter writer;
    int steps;
    long objects;
    int bytes;
    boolean full;
    /** Of each script, how many of its steps come before what this one writes next. */
    final int[] seen = new int[MOST_SCRIPTS];
    /** The last post, and how many steps stand above it. */
    int post;
    int posted;

    Script(int number, BufferedWriter writer) {
      this.number = number;
      this.writer = writer;
    }

    void step(Line line) throws IOException {
      for (Named object : line.objects) {
        object.scripts.add(this);
      }
      steps++;
      seen[number] = steps;
      write(line.text);
    }

    void write(String text) throws IOException {
      bytes += text.length();
      writer.write(text);
    }

    void end() throws IOException {
      if (writer != null) {
        writer.close();
      }
    }
  }

  /** Events that stay in order: those of objects that are joined. It knows where the last one was written. */
  private static final class Group {
    private Group into = this;
    private int size = 1;
    int number = -1;
    Script script;
    int steps;

    Group root() {
      while (into != into.into) {
        into = into.into;
      }
      return into;
    }

    /** The group of both. */
    Group join(Group other) {
      Group one = root();
      Group two = other.root();
      if (one.size < two.size) {
        return two.join(one);
      }
      if (one != two) {
        two.into = one;
        one.size += two.size;
      }
      return one;
    }
  }

  /** The name of an object, the scripts that name it, and by each rule what it is joined with. */
  private static final class Named {
    final String name;
    final Set<Script> scripts = new HashSet<>(2);
    final Map<String, Group> groups = new HashMap<>(2);

    Named(String name) {
      this.name = name;
    }
  }

  /** An object by its identity. Two keys of one object are equal while it lives. */
  private static final class Key extends WeakReference<Object> {
    final int hash;

    Key(Object object, ReferenceQueue<Object> collected) {
      super(object, collected);
      hash = System.identityHashCode(object);
    }

    @Override
    public int hashCode() {
      return hash;
    }

    @Override
    public boolean equals(Object other) {
      if (this == other) {
        return true;
      }
      if (!(other instanceof Key)) {
        return false;
      }
      Object object = get();
      return object != null && object == ((Key) other).get();
    }
  }
}
