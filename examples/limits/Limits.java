// Constants of each type that a class file keeps in an attribute, and one that code makes.
interface Limits extends Runnable {
    int MOST = 5;
    long FAR = 1L << 40;
    String NAME = "limits";
    boolean ON = true;
    char LETTER = 'a';
    Object LOCK = new Object();
}
