import java.nio.charset.StandardCharsets;
import java.util.HexFormat;

/** The events of a document in the lines of the program `listing`, with ';' for line ends. A string that the library hands out as null is `?`. */
final class EventLines {
    private final StringBuilder lines = new StringBuilder();
    private int count;

    void namespace(String prefix, String namespace) {
        line('N', part(prefix), part(namespace));
    }

    void start(String prefix, String namespace, String local) {
        line('S', part(prefix), part(namespace), string(local));
    }

    void attribute(String prefix, String namespace, String local, String value) {
        line('A', part(prefix), part(namespace), string(local), string(value));
    }

    void text(String chunk) {
        line('T', string(chunk));
    }

    void comment(String text) {
        line('C', string(text));
    }

    void instruction(String target, String content) {
        line('P', string(target), string(content));
    }

    void end() {
        line('E');
    }

    /** All lines, and the last one. */
    String finished() {
        return lines + "end " + count + ";";
    }

    private void line(char letter, String... strings) {
        lines.append(letter);
        for (String string : strings) {
            lines.append(' ').append(string);
        }
        lines.append(';');
        count++;
    }

    /** A prefix or a namespace: SAX has the empty string for an absent one. */
    private static String part(String s) {
        return "".equals(s) ? "-" : string(s);
    }

    private static String string(String s) {
        return s == null ? "?" : "=" + HexFormat.of().formatHex(s.getBytes(StandardCharsets.UTF_8));
    }
}
