import javax.xml.stream.XMLStreamConstants;
import javax.xml.stream.XMLStreamException;
import javax.xml.stream.XMLStreamReader;
import javax.xml.stream.XMLStreamWriter;

/** Takes down the events of a StAX reader as event lines, one chunk for each event, and hands each on to a writer where there is one. */
final class StaxEvents {
    final EventLines lines = new EventLines();
    private final XMLStreamReader reader;
    private final XMLStreamWriter writer;
    private final boolean marks;

    /** `writer` may be null. With `marks` it is also told where CDATA sections are, which no event of the link has. */
    StaxEvents(XMLStreamReader reader, XMLStreamWriter writer, boolean marks) {
        this.reader = reader;
        this.writer = writer;
        this.marks = marks;
    }

    String all() throws XMLStreamException {
        if (writer != null) {
            writer.writeStartDocument();
        }
        while (reader.hasNext()) {
            event(reader.next());
        }
        if (writer != null) {
            writer.writeEndDocument();
        }
        return lines.finished();
    }

    private void event(int kind) throws XMLStreamException {
        switch (kind) {
            case XMLStreamConstants.START_ELEMENT -> start();
            case XMLStreamConstants.END_ELEMENT -> end();
            case XMLStreamConstants.CHARACTERS, XMLStreamConstants.SPACE, XMLStreamConstants.CDATA -> text(kind);
            case XMLStreamConstants.COMMENT -> comment();
            case XMLStreamConstants.PROCESSING_INSTRUCTION -> instruction();
            case XMLStreamConstants.START_DOCUMENT, XMLStreamConstants.END_DOCUMENT, XMLStreamConstants.DTD -> { }
            default -> throw new XMLStreamException("an event of kind " + kind);
        }
    }

    private void start() throws XMLStreamException {
        String prefix = empty(reader.getPrefix()), namespace = empty(reader.getNamespaceURI()), local = reader.getLocalName();
        for (int i = 0; i < reader.getNamespaceCount(); i++) {
            lines.namespace(empty(reader.getNamespacePrefix(i)), empty(reader.getNamespaceURI(i)));
        }
        lines.start(prefix, namespace, local);
        for (int i = 0; i < reader.getAttributeCount(); i++) {
            lines.attribute(empty(reader.getAttributePrefix(i)), empty(reader.getAttributeNamespace(i)), reader.getAttributeLocalName(i), reader.getAttributeValue(i));
        }
        if (writer != null) {
            writer.writeStartElement(prefix, local, namespace);
            writeRest();
        }
    }

    private void writeRest() throws XMLStreamException {
        for (int i = 0; i < reader.getNamespaceCount(); i++) {
            writer.writeNamespace(empty(reader.getNamespacePrefix(i)), empty(reader.getNamespaceURI(i)));
        }
        for (int i = 0; i < reader.getAttributeCount(); i++) {
            writer.writeAttribute(empty(reader.getAttributePrefix(i)), empty(reader.getAttributeNamespace(i)), reader.getAttributeLocalName(i), reader.getAttributeValue(i));
        }
    }

    private void end() throws XMLStreamException {
        lines.end();
        if (writer != null) {
            writer.writeEndElement();
        }
    }

    private void text(int kind) throws XMLStreamException {
        String chunk = reader.getText();
        if (writer != null && chunk.isEmpty()) {
            return; // an empty CDATA section: no chunk is empty (7.7.4)
        }
        lines.text(chunk);
        if (writer != null && marks && kind == XMLStreamConstants.CDATA) {
            writer.writeCData(chunk);
        } else if (writer != null) {
            writer.writeCharacters(chunk);
        }
    }

    private void comment() throws XMLStreamException {
        lines.comment(reader.getText());
        if (writer != null) {
            writer.writeComment(reader.getText());
        }
    }

    private void instruction() throws XMLStreamException {
        String content = empty(reader.getPIData());
        lines.instruction(reader.getPITarget(), content);
        if (writer != null) {
            writer.writeProcessingInstruction(reader.getPITarget(), content);
        }
    }

    /** StAX has null, or the empty string, for an absent prefix, namespace or content. */
    private static String empty(String s) {
        return s == null ? "" : s;
    }
}
