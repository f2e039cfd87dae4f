/** Measures the calls of calls.c by so many threads: java Calls LIBRARY THREADS CALLS ROUNDS. */
final class Calls {
    /** How many threads measure, how many calls each makes in a round, and how many rounds there are. */
    private static native void begin(int threads, int calls, int rounds);

    /** What one thread does, from 0 on. The first one prints. */
    private static native void measure(int thread);

    public static void main(String[] words) throws InterruptedException {
        System.load(words[0]);
        Thread[] threads = new Thread[Integer.parseInt(words[1])];
        begin(threads.length, Integer.parseInt(words[2]), Integer.parseInt(words[3]));
        for (int at = 0; at < threads.length; at++) {
            int thread = at;
            threads[at] = new Thread(() -> measure(thread));
            threads[at].start();
        }
        for (Thread thread : threads) {
            thread.join();
        }
    }
}
