import android.app.Activity;
import android.os.Bundle;

/** Shows pictures, which are kept in a cache that outlives it. */
public class Gallery extends Activity {
    private Picture shown;
    private int place;

    protected void onCreate(Bundle saved) {
        shown = Pictures.find(0);
    }

    protected void onResume() {
        place++;
        shown = Pictures.find(place);
    }
}

class Picture {
    final int number;
    final int[] points;

    Picture(int number) {
        this.number = number;
        points = new int[64];
    }
}

/** Keeps the pictures that were asked for last. No Activity gets in, but the coarse report can't tell. */
class Pictures {
    private static final int MOST = 8;
    private static Picture[] kept = new Picture[MOST];

    static Picture find(int number) {
        int place = number & (MOST - 1);
        Picture there = kept[place];
        if (there == null || there.number != number) {
            there = new Picture(number);
            kept[place] = there;
        }
        return there;
    }
}
