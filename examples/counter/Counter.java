/** Counts and sums, with the instructions that a compiler makes of loops, switches and longs. */
class Counter {
    private static final long START = 1L << 40;
    private long total = START;
    private final int[] seen = new int[4];

    int kind(int n) {
        switch (n) {
            case 0:
            case 1:
                return 10;
            case 2:
                return 20;
            default:
                return n > 100 ? 1 : 0;
        }
    }

    int name(int n) {
        switch (n) {
            case -1000000:
                return 1;
            case 1000000:
                return 2;
            default:
                return 3;
        }
    }

    void add(int n) {
        for (int i = 0; i < seen.length; i++) {
            seen[i] += n;
        }
        total = total * 31 + n;
    }

    boolean isCounter(Object other) {
        try {
            return other instanceof Counter && ((Counter) other).total == total;
        } catch (RuntimeException e) {
            return false;
        }
    }
}
