import java.lang.ref.SoftReference;
import java.lang.ref.WeakReference;
import java.lang.reflect.Field;
import java.util.ArrayList;
import java.util.HashMap;
import java.util.Random;

/**
 * Builds a heap with objects of many shapes, drops a part of it at random, and has it collected while agent.c looks on.
 *
 * <p>Words: the agent's library, the folder for its copies, the shape of the heap (graph, list or mixed), the
 * collection (full or young), the number of objects, how many of a hundred are kept, the seed.
 */
public final class Zoo {
    /** The next collection is copied into this folder. */
    static native void arm(String folder, boolean young, Class<?> soft, long clock);

    static native boolean isDone();

    /** Makes the object a root: a slot that the collector updates, and the agent reads. */
    static native void root(Object object);

    // The fields of a superclass come first, so references and data are mixed in an object.
    static class Node {
        Node a;
    }

    static class Node2 extends Node {
        final int i;
        final short s;
        final byte t = 5;
        Node b;

        Node2(Random random) {
            i = random.nextInt();
            s = (short) random.nextInt();
        }
    }

    static class Node3 extends Node2 {
        final long x;

        Node3(Random random) {
            super(random);
            x = random.nextLong();
        }
    }

    static class Node4 extends Node3 {
        final double d;
        Object c;

        Node4(Random random) {
            super(random);
            d = random.nextDouble();
        }
    }

    static class Node5 extends Node4 {
        final char f;
        Node e;

        Node5(Random random) {
            super(random);
            f = (char) random.nextInt();
        }
    }

    static final class Cell {
        final Object item;
        final Cell next;

        Cell(Object item, Cell next) {
            this.item = item;
            this.next = next;
        }
    }

    static final int CHUNK = 500;

    final Random random;
    final String shape;
    final int count;
    final Object[][] all; // all objects by number, in chunks, each of which is a root

    Zoo(String shape, int count, long seed) {
        this.shape = shape;
        this.count = count;
        random = new Random(seed);
        all = new Object[(count + CHUNK - 1) / CHUNK][CHUNK];
        root(all);
        for (int k = 0; k < Math.min(all.length, 3000); k++) root(all[k]);
    }

    Object get(int i) {
        return all[i / CHUNK][i % CHUNK];
    }

    void set(int i, Object object) {
        all[i / CHUNK][i % CHUNK] = object;
    }

    /** An object that was made before number i, or null if there is none. */
    Object older(int i) {
        return i == 0 ? null : get(random.nextInt(i));
    }

    Object make(int i) {
        switch (shape) {
            case "graph": return node();
            case "list": return cell(i);
            default: return anything(i);
        }
    }

    Node node() {
        switch (random.nextInt(5)) {
            case 0: return new Node();
            case 1: return new Node2(random);
            case 2: return new Node3(random);
            case 3: return new Node4(random);
            default: return new Node5(random);
        }
    }

    /** The next cell of one of forty lists. */
    Cell cell(int i) {
        Object item = random.nextInt(4) == 0 ? new long[random.nextInt(6)] : null;
        return new Cell(item, i < 40 ? null : (Cell) get(i - 1 - random.nextInt(40)));
    }

    Object anything(int i) {
        switch (random.nextInt(12)) {
            case 0: return bytes(random.nextInt(60));
            case 1: return random.ints(random.nextInt(9)).toArray();
            case 2: return array(i);
            case 3: return "object " + random.nextInt();
            case 4: return map(i);
            case 5: return list(i);
            case 6: return new WeakReference<>(older(i));
            case 7: return new WeakReference<>(node()); // Nothing else leads to that node.
            case 8: return random.nextInt(20) == 0 ? new SoftReference<>(node()) : Long.valueOf(random.nextLong());
            case 9: return new Object[random.nextInt(100) == 0 ? 1024 + random.nextInt(300) : 2];
            case 10: return random.longs(1 + random.nextInt(5)).toArray();
            default: return node();
        }
    }

    byte[] bytes(int length) {
        byte[] bytes = new byte[length];
        random.nextBytes(bytes);
        return bytes;
    }

    Object[] array(int i) {
        Object[] array = new Object[random.nextInt(12)];
        for (int k = 0; k < array.length; k++) array[k] = older(i);
        return array;
    }

    HashMap<Integer, Object> map(int i) {
        HashMap<Integer, Object> map = new HashMap<>();
        for (int k = random.nextInt(5); k > 0; k--) map.put(random.nextInt(1000), older(i));
        return map;
    }

    ArrayList<Object> list(int i) {
        ArrayList<Object> list = new ArrayList<>();
        for (int k = random.nextInt(8); k > 0; k--) list.add(older(i));
        return list;
    }

    void fill(int from, int to) {
        for (int i = from; i < to; i++) set(i, make(i));
    }

    void drop(int live) {
        for (int i = 0; i < count; i++) if (random.nextInt(100) >= live) set(i, null);
    }

    /** Links the nodes that are kept, near ones and far ones, in both directions. What was dropped stays unreached. */
    void link() {
        for (int i = 0; i < count; i++) {
            Object o = get(i);
            Object near = get(Math.max(0, Math.min(count - 1, i - 256 + random.nextInt(512))));
            Object far = get(random.nextInt(count));
            if (o instanceof Node && near instanceof Node) ((Node) o).a = (Node) near;
            if (o instanceof Node2 && far instanceof Node) ((Node2) o).b = (Node) far;
            if (o instanceof Node4) ((Node4) o).c = far;
            if (o instanceof Node5 && near instanceof Node) ((Node5) o).e = (Node) near;
        }
        for (int k = 0; k < 500; k++) {
            Object o = get(random.nextInt(count));
            if (o != null) root(o);
        }
    }

    /** Old objects stand in the old generation. A fiftieth of the objects is new, in eden, when all is collected. */
    void collectAll(int live) {
        fill(0, count);
        System.gc();
        drop(live);
        link();
        for (int k = 0; k < count / 50; k++) {
            Object o = make(random.nextInt(count));
            if (random.nextInt(2) == 0) set(random.nextInt(count), o);
        }
    }

    /** A half of the objects is old, the other one is in eden, and they lead to one another. */
    void collectYoung(int live) {
        fill(0, count / 2);
        System.gc();
        fill(count / 2, count);
        drop(live);
        link();
    }

    void allocateUntilDone() {
        for (int k = 0; !isDone(); k++) {
            Object o = node();
            if (k % 64 == 0) set(random.nextInt(count), o);
        }
    }

    /** SoftReference.clock is a static field that the collector writes. */
    static long offsetOfClock() throws ReflectiveOperationException {
        Field unsafe = sun.misc.Unsafe.class.getDeclaredField("theUnsafe");
        unsafe.setAccessible(true);
        return ((sun.misc.Unsafe) unsafe.get(null)).staticFieldOffset(SoftReference.class.getDeclaredField("clock"));
    }

    public static void main(String[] words) throws Exception {
        System.load(words[0]);
        boolean young = words[3].equals("young");
        int live = Integer.parseInt(words[5]);
        Zoo zoo = new Zoo(words[2], Integer.parseInt(words[4]), Long.parseLong(words[6]));
        if (young) zoo.collectYoung(live);
        else zoo.collectAll(live);
        arm(words[1], young, SoftReference.class, offsetOfClock());
        if (young) zoo.allocateUntilDone();
        else System.gc();
        if (!isDone()) throw new IllegalStateException("no collection was seen");
    }
}
