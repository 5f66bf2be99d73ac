/* A controller in small: asks the check whether a template may go to the switches, and says the answer so that a person and a script both understand it.

   usage: controller [FILE]          without FILE, or for -, standard input
   status: 0 accepted; 1 refused; 2 nothing was checked, or the answer could not be printed */
#include "lomphachit.h"

#include <errno.h>
#include <stdio.h>
#include <string.h>

enum { ACCEPTED = 0, REFUSED = 1, NOT_CHECKED = 2 };
static const char *self = "controller"; /* the name that it was called by */
enum { AROUND = 8 }; /* octets shown on each side of the place, so that a line fits a narrow screen */

/* What went wrong, in words that need no paper beside them. The check never answers ROOM or EVENT. */
static const char *why(uint32_t refusal, size_t n) {
    switch (refusal) {
    case LOMPHACHIT_REFUSED_SIZE: return n ? "the document has over 16,384 octets" : "the document is empty";
    case LOMPHACHIT_REFUSED_TRUNCATED: return "the octets end too early, or a length passes the end";
    case LOMPHACHIT_REFUSED_HEADER: return "the first four octets are not e0 00 00 01";
    case LOMPHACHIT_REFUSED_OPTIONAL_PART: return "an optional part is announced that the link does not carry";
    case LOMPHACHIT_REFUSED_CODE: return "these bits mean nothing at this place";
    case LOMPHACHIT_REFUSED_PADDING: return "padding bits are wrong, or an end stands elsewhere than it should";
    case LOMPHACHIT_REFUSED_RANGE: return "a number, or how many entries a table lists, is over 1,048,576";
    case LOMPHACHIT_REFUSED_FORMAT: return "a string is in another alphabet than 1 and 2 or by another algorithm than 3, 4 and 5, or this is an entity reference or a type declaration";
    case LOMPHACHIT_REFUSED_TEXT: return "the octets of the string that starts here are no text in its form, or not whole integers, or it has a character that XML does not have";
    case LOMPHACHIT_REFUSED_INDEX: return "a number is beyond its table";
    case LOMPHACHIT_REFUSED_REPEAT: return "a string or name is spelled though its table holds it";
    case LOMPHACHIT_REFUSED_FULL: return "a table would get more than 256 entries";
    case LOMPHACHIT_REFUSED_DEPTH: return "elements are more than 32 deep";
    case LOMPHACHIT_REFUSED_STRUCTURE: return "no root, a second root, an empty list or head, a prefix without namespace, or octets after the end";
    default: return "an answer that the check should not give; tell the people who built this program";
    }
}

/* The octets around the place and a mark under the one at it. A place behind the last octet is where one is missing, and is shown as two dots. */
static void show(const uint8_t *octets, size_t n, size_t place) {
    size_t from = place > AROUND ? place - AROUND : 0;
    int indent = printf("    from place %zu:", from);
    for (size_t i = from; i < n && i <= place + AROUND; i++) printf(" %02x", octets[i]);
    printf("%s\n%*s\n", place < n ? "" : " ..", indent + 3 * (int)(place - from + 1), "^^");
}

static void say_refused(const char *name, const uint8_t *octets, size_t n, uint32_t answer) {
    uint32_t refusal = lomphachit_refusal_of(answer);
    size_t place = lomphachit_place_of(answer);
    printf("%s: REFUSED: %s (%u) at place %zu", name, lomphachit_name_of(refusal), (unsigned)refusal, place);
    /* SIZE is about the whole document, and n is not its length where that is over the limit. */
    if (refusal != LOMPHACHIT_REFUSED_SIZE) {
        if (place < n) printf(" (octet %zu of %zu)", place + 1, n);
        else printf(" (behind the last of %zu octets)", n);
    }
    printf(": %s\n", why(refusal, n));
    if (refusal != LOMPHACHIT_REFUSED_SIZE) show(octets, n, place);
}

static int check(const char *name, const uint8_t *octets, size_t n) {
    uint32_t answer = lomphachit_check(octets, n);
    if (answer) say_refused(name, octets, n, answer);
    else printf("%s: ACCEPTED: %zu octets\n", name, n);
    /* A script that saw no line must not take the status for an answer. */
    if (fflush(stdout)) {
        fprintf(stderr, "%s: the answer cannot be printed: %s\n", self, strerror(errno));
        return NOT_CHECKED;
    }
    return answer ? REFUSED : ACCEPTED;
}

static int cannot_be_read(const char *name) {
    fprintf(stderr, "%s: %s cannot be read: %s; NOT CHECKED\n", self, name, strerror(errno));
    return NOT_CHECKED;
}

int main(int argc, char **argv) {
    /* One octet more than a document may have, so that a longer one is seen to be longer. */
    static uint8_t octets[LOMPHACHIT_OCTETS + 1];
    const char *file = argc > 1 ? argv[1] : "-";
    if (argc > 0) self = strrchr(argv[0], '/') ? strrchr(argv[0], '/') + 1 : argv[0];
    int standard = !strcmp(file, "-");
    if (argc > 2 || !*file || (*file == '-' && !standard)) {
        fprintf(stderr, "usage: %s [FILE]; without FILE, or for -, standard input\n", self);
        return NOT_CHECKED;
    }
    const char *name = standard ? "standard input" : file;
    FILE *in = standard ? stdin : fopen(file, "rb");
    if (!in) return cannot_be_read(name);
    size_t n = fread(octets, 1, sizeof octets, in);
    /* Half a template may be a whole document, so octets in front of an error are not checked. */
    if (ferror(in)) return cannot_be_read(name);
    return check(name, octets, n);
}
