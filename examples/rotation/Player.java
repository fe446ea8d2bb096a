import android.app.Activity;
import android.os.Bundle;

/** Remembers the screen that is shown, and forgets it only where it is still the same one. */
public class Player extends Activity {
    static Activity shown;

    protected void onCreate(Bundle saved) {
        shown = this;
    }

    protected void onDestroy() {
        if (shown == this) {
            shown = null;
        }
    }
}
