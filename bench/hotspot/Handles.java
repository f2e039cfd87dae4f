/** Does one thing of handles.c with a handle that is no more, and prints what was answered: java Handles LIBRARY NUMBER. */
final class Handles {
    /** Does the thing with this number, and prints what was answered. */
    private static native void act(int number);

    public static void main(String[] words) {
        System.load(words[0]);
        act(Integer.parseInt(words[1]));
        System.gc();
    }
}
