import android.app.Activity;
import android.os.Bundle;

/** Shows the song that plays, and is told by the player when it changes. */
public class Screen extends Activity {
    int shown;

    protected void onCreate(Bundle saved) {
        Player.listener = new Shower(this);
    }

    protected void onDestroy() {
        // Player.listener stays, so the player keeps this screen alive.
    }
}

interface Listener {
    void changed(int song);
}

/** Lives as long as the process. */
class Player {
    static Listener listener;

    static void play(int song) {
        if (listener != null) {
            listener.changed(song);
        }
    }
}

class Shower implements Listener {
    private final Screen screen;

    Shower(Screen screen) {
        this.screen = screen;
    }

    public void changed(int song) {
        screen.shown = song;
    }
}
