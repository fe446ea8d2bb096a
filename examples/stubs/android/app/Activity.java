package android.app;

import android.content.Context;
import android.os.Bundle;

// The handlers that the harness calls; the built-in class has nothing else.
public class Activity extends Context {
    protected void onCreate(Bundle saved) {}
    protected void onStart() {}
    protected void onRestart() {}
    protected void onResume() {}
    protected void onPause() {}
    protected void onStop() {}
    protected void onDestroy() {}
    protected void onSaveInstanceState(Bundle saved) {}
}
