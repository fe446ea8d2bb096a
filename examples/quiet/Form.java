import android.app.Activity;
import android.os.Bundle;

/** A form whose steps know each other and the form, and which nothing static knows. */
public class Form extends Activity {
    private static int opened;
    private static final String TITLE = "form";

    private Step first;
    private String title;

    protected void onCreate(Bundle saved) {
        opened++;
        title = TITLE;
        first = new Step(this, new Step(this, null));
    }

    protected void onStop() {
        int done = 0;
        for (Step step = first; step != null; step = step.next) {
            done += step.isDone() ? 1 : 0;
        }
        if (done == 2) {
            first = null;
        }
    }

    boolean isLate() {
        return opened > 3;
    }
}

class Step {
    private final Form form;
    final Step next;

    Step(Form form, Step next) {
        this.form = form;
        this.next = next;
    }

    boolean isDone() {
        return form.isLate();
    }
}
