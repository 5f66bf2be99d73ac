import org.xml.sax.Attributes;
import org.xml.sax.ext.DefaultHandler2;

/** Takes down SAX calls as event lines, one chunk for each call of `characters`. */
final class SaxEvents extends DefaultHandler2 {
    final EventLines lines = new EventLines();

    @Override
    public void startPrefixMapping(String prefix, String namespace) {
        lines.namespace(prefix, namespace);
    }

    @Override
    public void startElement(String namespace, String local, String qualified, Attributes attributes) {
        lines.start(prefix(qualified, local), namespace, local);
        for (int i = 0; i < attributes.getLength(); i++) {
            String name = attributes.getLocalName(i);
            lines.attribute(prefix(attributes.getQName(i), name), attributes.getURI(i), name, attributes.getValue(i));
        }
    }

    @Override
    public void endElement(String namespace, String local, String qualified) {
        lines.end();
    }

    @Override
    public void characters(char[] characters, int start, int length) {
        lines.text(new String(characters, start, length));
    }

    @Override
    public void comment(char[] characters, int start, int length) {
        lines.comment(new String(characters, start, length));
    }

    @Override
    public void processingInstruction(String target, String content) {
        lines.instruction(target, content);
    }

    /** By the local name's length: on the link a local name may have a colon of its own. */
    private static String prefix(String qualified, String local) {
        int more = local == null ? 0 : qualified.length() - local.length();
        return more > 0 ? qualified.substring(0, more - 1) : "";
    }
}
