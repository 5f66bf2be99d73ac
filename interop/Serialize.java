import com.sun.xml.fastinfoset.Encoder;
import com.sun.xml.fastinfoset.sax.SAXDocumentSerializer;
import com.sun.xml.fastinfoset.stax.StAXDocumentSerializer;
import java.io.ByteArrayOutputStream;
import java.io.InputStream;
import java.nio.file.Files;
import java.nio.file.Path;
import java.util.HexFormat;
import javax.xml.parsers.SAXParserFactory;
import javax.xml.stream.XMLInputFactory;
import org.jvnet.fastinfoset.FastInfosetSerializer;
import org.xml.sax.InputSource;
import org.xml.sax.XMLReader;

/**
 * Makes fast infoset documents of XML texts by the library's SAX and StAX serializers, in each setting. The event lines come from the XML parser and never
 * from the document.
 *
 * usage: java Serialize FILE..          a line for each document: file, serializer, setting, octets, event lines; tabs between
 */
final class Serialize {
    /**
     * What the serializer adds to its tables; whether it is told of CDATA sections and the type declaration, to write utf-16, and, by SAX calls alone, to write what an alphabet
     * has in that alphabet, or lists of integers as integers.
     */
    private enum Setting {
        DEFAULTS(32, false), ADDS_ALL(Integer.MAX_VALUE, false), ADDS_NONE(0, false), MARKS(32, true), UTF_16(32, false), ALPHABETS(32, false), INTEGERS(32, false);

        final int most;
        final boolean marks;

        Setting(int most, boolean marks) {
            this.most = most;
            this.marks = marks;
        }

        /** The library adds what has fewer characters than `most`; 32 is its own choice, and then nothing is set. */
        void apply(Encoder encoder) {
            if (this == UTF_16) {
                encoder.setCharacterEncodingScheme(FastInfosetSerializer.UTF_16BE);
            }
            if (most == 32) {
                return;
            }
            encoder.setMaxAttributeValueSize(most);
            encoder.setMaxCharacterContentChunkSize(most);
        }
    }

    private static void print(Path file, String serializer, Setting setting, ByteArrayOutputStream octets, String lines) {
        System.out.println(String.join("\t", file.getFileName().toString(), serializer, setting.name(), HexFormat.of().formatHex(octets.toByteArray()), lines));
    }

    private static void bySax(Path file, Setting setting) throws Exception {
        SAXDocumentSerializer serializer = new SAXDocumentSerializer();
        setting.apply(serializer);
        ByteArrayOutputStream octets = new ByteArrayOutputStream();
        serializer.setOutputStream(octets);
        SaxTee tee = new SaxTee(serializer, setting.marks, setting == Setting.ALPHABETS, setting == Setting.INTEGERS);
        XMLReader reader = SAXParserFactory.newDefaultNSInstance().newSAXParser().getXMLReader();
        reader.setContentHandler(tee);
        reader.setProperty("http://xml.org/sax/properties/lexical-handler", tee);
        try (InputStream text = Files.newInputStream(file)) {
            reader.parse(new InputSource(text));
        }
        print(file, "SAX", setting, octets, tee.events.lines.finished());
    }

    private static void byStax(Path file, Setting setting) throws Exception {
        ByteArrayOutputStream octets = new ByteArrayOutputStream();
        StAXDocumentSerializer serializer = new StAXDocumentSerializer(octets);
        setting.apply(serializer);
        XMLInputFactory factory = XMLInputFactory.newDefaultFactory();
        factory.setProperty("http://java.sun.com/xml/stream/properties/report-cdata-event", true);
        try (InputStream text = Files.newInputStream(file)) {
            String lines = new StaxEvents(factory.createXMLStreamReader(text), serializer, setting.marks).all();
            print(file, "StAX", setting, octets, lines);
        }
    }

    public static void main(String[] files) throws Exception {
        for (String file : files) {
            for (Setting setting : Setting.values()) {
                bySax(Path.of(file), setting);
                if (setting != Setting.ALPHABETS && setting != Setting.INTEGERS) {
                    byStax(Path.of(file), setting);
                }
            }
        }
    }
}
