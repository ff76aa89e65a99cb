import java.io.IOException;
import java.io.Reader;
import java.util.Collection;
import java.util.Iterator;
import java.util.Map;
import java.util.Set;
import java.util.concurrent.locks.Lock;

/** The calls that rules speak of, each with its events: what a weaver would put into the program. */
final class Calls {
  private final Recorder recorder;

  Calls(Recorder recorder) {
    this.recorder = recorder;
  }

  <T> void add(Collection<T> collection, T item) {
    synchronized (collection) {
      collection.add(item);
      recorder.event("CollectionChanged.update", collection);
    }
  }

  <T> Iterator<T> iterator(Collection<T> collection) {
    synchronized (collection) {
      Iterator<T> iterator = collection.iterator();
      recorder.event("CollectionChanged.create", collection, iterator);
      recorder.event("MapChanged.getiter", collection, iterator);
      return iterator;
    }
  }

  boolean hasNext(Iterator<?> iterator) {
    boolean more = iterator.hasNext();
    recorder.event("HasNext.hasnext", iterator);
    return more;
  }

  <T> T next(Iterator<T> iterator) {
    recorder.event("CollectionChanged.next", iterator);
    recorder.event("MapChanged.use", iterator);
    recorder.event("HasNext.next", iterator);
    return iterator.next();
  }

  <K, V> void put(Map<K, V> map, K key, V value) {
    synchronized (map) {
      recorder.event("MapChanged.modify", map);
      map.put(key, value);
    }
  }

  <K, V> Set<K> keySet(Map<K, V> map) {
    synchronized (map) {
      Set<K> keys = map.keySet();
      recorder.event("MapChanged.getset", map, keys);
      return keys;
    }
  }

  void lock(Lock lock) {
    lock.lock();
    recorder.event("HeldLock.acquire", lock, Thread.currentThread());
  }

  void unlock(Lock lock) {
    recorder.event("HeldLock.release", lock, Thread.currentThread());
    lock.unlock();
  }

  int read(Reader reader) throws IOException {
    recorder.event("ClosedReader.read", reader);
    return reader.read();
  }

  void close(Reader reader) throws IOException {
    recorder.event("ClosedReader.close", reader);
    reader.close();
  }
}
