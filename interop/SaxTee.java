import com.sun.xml.fastinfoset.sax.SAXDocumentSerializer;
import java.math.BigInteger;
import java.util.Arrays;
import org.jvnet.fastinfoset.EncodingAlgorithmIndexes;
import org.jvnet.fastinfoset.RestrictedAlphabet;
import org.jvnet.fastinfoset.sax.helpers.EncodingAlgorithmAttributesImpl;
import org.xml.sax.Attributes;
import org.xml.sax.SAXException;
import org.xml.sax.ext.DefaultHandler2;

/** Hands each call of an XML parser to the event lines and to the library's serializer, so that both have the same chunks. */
final class SaxTee extends DefaultHandler2 {
    final SaxEvents events = new SaxEvents();
    private final SAXDocumentSerializer serializer;
    private final boolean marks;
    private final boolean packs;
    private final boolean counts;

    /**
     * With `marks` the serializer is also told where CDATA sections and the type declaration are, which no event of the link has. With `packs` it is told to write chunks and
     * values in an alphabet that has all their characters, with `counts` as integers where they are a list of these.
     */
    SaxTee(SAXDocumentSerializer serializer, boolean marks, boolean packs, boolean counts) {
        this.serializer = serializer;
        this.marks = marks;
        this.packs = packs;
        this.counts = counts;
    }

    /** The lower of the two that are built in, by the library's own characters; null where neither has all. */
    private static String alphabet(String text) {
        for (String letters : new String[] {RestrictedAlphabet.NUMERIC_CHARACTERS, RestrictedAlphabet.DATE_TIME_CHARACTERS}) {
            if (!text.isEmpty() && text.chars().allMatch(c -> letters.indexOf(c) >= 0)) {
                return letters;
            }
        }
        return null;
    }

    /** The integers that a text is in decimal, as an array of the narrowest type that has them all; null where it is no list of them. */
    private static Object integers(String text) {
        if (!text.matches("(0|-?[1-9][0-9]*)( (0|-?[1-9][0-9]*))*")) {
            return null;
        }
        BigInteger[] all = Arrays.stream(text.split(" ")).map(BigInteger::new).toArray(BigInteger[]::new);
        int bits = Arrays.stream(all).mapToInt(BigInteger::bitLength).max().getAsInt();
        if (bits >= Long.SIZE) {
            return null;
        }
        if (bits >= Integer.SIZE) {
            return Arrays.stream(all).mapToLong(BigInteger::longValueExact).toArray();
        }
        int[] ints = Arrays.stream(all).mapToInt(BigInteger::intValueExact).toArray();
        if (bits >= Short.SIZE) {
            return ints;
        }
        short[] shorts = new short[ints.length];
        for (int i = 0; i < ints.length; i++) {
            shorts[i] = (short) ints[i];
        }
        return shorts;
    }

    private static int algorithm(Object integers) {
        return integers instanceof short[] ? EncodingAlgorithmIndexes.SHORT : integers instanceof int[] ? EncodingAlgorithmIndexes.INT : EncodingAlgorithmIndexes.LONG;
    }

    private static Attributes counted(Attributes attributes) {
        EncodingAlgorithmAttributesImpl counted = new EncodingAlgorithmAttributesImpl();
        for (int i = 0; i < attributes.getLength(); i++) {
            Object integers = integers(attributes.getValue(i));
            if (integers == null) {
                counted.addAttribute(attributes.getURI(i), attributes.getLocalName(i), attributes.getQName(i), attributes.getType(i), attributes.getValue(i));
            } else {
                counted.addAttributeWithBuiltInAlgorithmData(attributes.getURI(i), attributes.getLocalName(i), attributes.getQName(i), algorithm(integers), integers);
            }
        }
        return counted;
    }

    private void count(Object integers) throws SAXException {
        if (integers instanceof short[] shorts) {
            serializer.shorts(shorts, 0, shorts.length);
        } else if (integers instanceof int[] ints) {
            serializer.ints(ints, 0, ints.length);
        } else {
            serializer.longs((long[]) integers, 0, ((long[]) integers).length);
        }
    }

    private static Attributes packed(Attributes attributes) {
        EncodingAlgorithmAttributesImpl packed = new EncodingAlgorithmAttributesImpl();
        for (int i = 0; i < attributes.getLength(); i++) {
            String value = attributes.getValue(i);
            packed.addAttribute(attributes.getURI(i), attributes.getLocalName(i), attributes.getQName(i), attributes.getType(i), value, false, alphabet(value));
        }
        return packed;
    }

    @Override
    public void startDocument() throws SAXException {
        serializer.startDocument();
    }

    @Override
    public void endDocument() throws SAXException {
        serializer.endDocument();
    }

    @Override
    public void startPrefixMapping(String prefix, String namespace) throws SAXException {
        events.startPrefixMapping(prefix, namespace);
        serializer.startPrefixMapping(prefix, namespace);
    }

    @Override
    public void startElement(String namespace, String local, String qualified, Attributes attributes) throws SAXException {
        events.startElement(namespace, local, qualified, attributes);
        serializer.startElement(namespace, local, qualified, packs ? packed(attributes) : counts ? counted(attributes) : attributes);
    }

    @Override
    public void endElement(String namespace, String local, String qualified) throws SAXException {
        events.endElement(namespace, local, qualified);
        serializer.endElement(namespace, local, qualified);
    }

    @Override
    public void characters(char[] characters, int start, int length) throws SAXException {
        events.characters(characters, start, length);
        String text = new String(characters, start, length);
        String letters = packs ? alphabet(text) : null;
        Object integers = counts ? integers(text) : null;
        if (integers != null) {
            count(integers);
        } else if (letters == null) {
            serializer.characters(characters, start, length);
        } else if (letters.equals(RestrictedAlphabet.NUMERIC_CHARACTERS)) {
            serializer.numericCharacters(characters, start, length);
        } else {
            serializer.dateTimeCharacters(characters, start, length);
        }
    }

    @Override
    public void comment(char[] characters, int start, int length) throws SAXException {
        events.comment(characters, start, length);
        serializer.comment(characters, start, length);
    }

    @Override
    public void processingInstruction(String target, String content) throws SAXException {
        events.processingInstruction(target, content);
        serializer.processingInstruction(target, content);
    }

    @Override
    public void startCDATA() throws SAXException {
        if (marks) {
            serializer.startCDATA();
        }
    }

    @Override
    public void endCDATA() throws SAXException {
        if (marks) {
            serializer.endCDATA();
        }
    }

    @Override
    public void startDTD(String name, String publicId, String systemId) throws SAXException {
        if (marks) {
            serializer.startDTD(name, publicId, systemId);
        }
    }
}
