/** Makes drawn calls by the machine's own JNI functions and by luthrady, in so many threads: java Beside LIBRARY THREADS OPERATIONS SEED. */
final class Beside {
    /** Makes so many drawn operations in this thread, and returns how many were answered otherwise by the one than by the other. */
    private static native int run(int thread, int operations, int seed);

    /** Closes the room. Returns how many differences that told. */
    private static native int end();

    /** How many differences all threads found. */
    private static int differences;

    private static synchronized void add(int found) {
        differences += found;
    }

    public static void main(String[] words) throws InterruptedException {
        System.load(words[0]);
        Thread[] threads = new Thread[Integer.parseInt(words[1])];
        for (int at = 0; at < threads.length; at++) {
            int thread = at;
            threads[at] = new Thread(() -> add(run(thread, Integer.parseInt(words[2]), Integer.parseInt(words[3]))));
            threads[at].start();
        }
        for (Thread thread : threads) {
            thread.join();
        }
        add(end());
        System.out.println(differences + " differences");
        System.exit(differences == 0 ? 0 : 1);
    }
}
