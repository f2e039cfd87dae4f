/** Runs scripts by the machine's own JNI functions: java Same LIBRARY SCRIPT.. */
final class Same {
    /** Runs the script of a file, and writes what it prints into the file of that name with `.came` behind it. */
    private static native void run(String path);

    public static void main(String[] words) {
        System.load(words[0]);
        for (int at = 1; at < words.length; at++) {
            run(words[at]);
        }
    }
}
