/* Parses one XML document so many times with libexpat, for a count of instructions from outside: `check` with no handlers; `read` with handlers that keep a record of 14
   words for each event, of which the last is its place in the text, and copy its strings, since libexpat's own do not outlive the handler. The parser is made once and reset for each document, with namespaces
   as triplets and a fixed salt, so that the count is the same in every run. Texts that libexpat hands out in several pieces are several events.

   usage: expat check|read CALLS < text           # the numbers of starts, attributes and octets of text on standard output */
#include <expat.h>
#include <stdint.h>
#include <stdio.h>
#include <stdlib.h>
#include <string.h>

enum { OCTETS = 1 << 20, RECORD = 14, PLACE = 13, EVENTS = 1 << 16 };
static char xml[OCTETS], area[2 * OCTETS];
static uint32_t records[RECORD * EVENTS];
static size_t events, kept;
static unsigned long starts, attributes, text;
static XML_Parser parser;

static void keep(uint32_t *string, const char *octets, size_t n) {
    memcpy(area + kept, octets, n);
    string[0] = 2, string[1] = (uint32_t)kept, string[2] = (uint32_t)n;
    kept += n;
}

static uint32_t *record(uint32_t kind) {
    uint32_t *r = records + RECORD * events++;
    memset(r, 0, RECORD * sizeof *r);
    r[0] = kind, r[PLACE] = (uint32_t)XML_GetCurrentByteIndex(parser);
    return r;
}

/* The strings of a triplet: namespace, local name, prefix; or the local name alone. */
static void keep_name(uint32_t *r, const char *name) {
    const char *local = strchr(name, '|');
    if (!local) {
        keep(r + 7, name, strlen(name));
        return;
    }
    keep(r + 4, name, (size_t)(local - name));
    const char *prefix = strchr(++local, '|');
    keep(r + 7, local, prefix ? (size_t)(prefix - local) : strlen(local));
    if (prefix) keep(r + 1, prefix + 1, strlen(prefix + 1));
}

static void on_start(void *none, const char *name, const char **pairs) {
    (void)none;
    keep_name(record(2), name);
    starts++;
    for (; *pairs; pairs += 2, attributes++) {
        uint32_t *r = record(3);
        keep_name(r, pairs[0]);
        keep(r + 10, pairs[1], strlen(pairs[1]));
    }
}

static void on_end(void *none, const char *name) {
    (void)none, (void)name;
    record(7);
}

static void on_text(void *none, const char *octets, int n) {
    (void)none;
    keep(record(4) + 10, octets, (size_t)n);
    text += (unsigned long)n;
}

static void on_comment(void *none, const char *octets) {
    (void)none;
    keep(record(5) + 10, octets, strlen(octets));
}

static void on_instruction(void *none, const char *target, const char *content) {
    (void)none;
    uint32_t *r = record(6);
    keep(r + 7, target, strlen(target));
    keep(r + 10, content, strlen(content));
}

static void on_namespace(void *none, const char *prefix, const char *namespace) {
    (void)none;
    uint32_t *r = record(1);
    if (prefix) keep(r + 1, prefix, strlen(prefix));
    if (namespace) keep(r + 4, namespace, strlen(namespace));
}

static int parse(char what, size_t n) {
    events = kept = 0;
    XML_ParserReset(parser, 0);
    XML_SetHashSalt(parser, 1);
    XML_SetReturnNSTriplet(parser, 1);
    if (what == 'r') {
        XML_SetElementHandler(parser, on_start, on_end);
        XML_SetCharacterDataHandler(parser, on_text);
        XML_SetCommentHandler(parser, on_comment);
        XML_SetProcessingInstructionHandler(parser, on_instruction);
        XML_SetStartNamespaceDeclHandler(parser, on_namespace);
    }
    return XML_Parse(parser, xml, (int)n, 1) == XML_STATUS_OK;
}

int main(int argc, char **argv) {
    if (argc != 3) return 2;
    size_t n = fread(xml, 1, sizeof xml, stdin);
    parser = XML_ParserCreateNS(0, '|');
    int good = parse('r', n);
    printf("%lu %lu %lu\n", starts, attributes, text);
    for (long i = 0; i < atol(argv[2]); i++) good &= parse(argv[1][0], n);
    return !good;
}
