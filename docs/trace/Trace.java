package trace;

import java.io.FileOutputStream;
import java.io.IOException;
import java.io.OutputStream;
import java.nio.charset.StandardCharsets;

/** Writes the events of a process into a file. */
public final class Trace {
    private static OutputStream file;

    private Trace() {}

    /** Opens the file of the process, to append. It is called once, before the first event. */
    public static synchronized void open(String path) throws IOException {
        file = new FileOutputStream(path, true);
    }

    /** Writes a line of JSON. The operating system has the line when the method returns. */
    public static synchronized void event(String line) {
        try {
            file.write((line + "\n").getBytes(StandardCharsets.UTF_8));
        } catch (IOException e) {
            throw new IllegalStateException("a record that lacks a line says little", e);
        }
    }
}
