/*
 * Counts the events of libxml2's push parser for HTML, which makes no tree here.
 *
 *     libxml2 < PAGE
 *
 * It reads standard input as it arrives. An element's end is an event without an end tag, too.
 */
#include <libxml/HTMLparser.h>
#include <stdio.h>
#include <string.h>

enum { PIECE = 1 << 16 };

typedef struct {
    unsigned long tags, attributes, text_bytes, comments;
} counts;

static void take_start(void *found, const xmlChar *name, const xmlChar **attributes) {
    counts *all = found;
    (void)name;
    all->tags++;
    for (size_t at = 0; attributes && attributes[at]; at += 2) all->attributes++;
}

static void take_end(void *found, const xmlChar *name) {
    (void)name;
    ((counts *)found)->tags++;
}

static void take_text(void *found, const xmlChar *text, int len) {
    (void)text;
    ((counts *)found)->text_bytes += (unsigned long)len;
}

static void take_comment(void *found, const xmlChar *text) {
    (void)text;
    ((counts *)found)->comments++;
}

int main(void) {
    static char bytes[PIECE];
    xmlSAXHandler events;
    memset(&events, 0, sizeof events);
    events.startElement = take_start;
    events.endElement = take_end;
    events.characters = events.cdataBlock = take_text;
    events.comment = take_comment;
    counts found = {0};
    htmlParserCtxtPtr parser = htmlCreatePushParserCtxt(&events, &found, "", 0, NULL, XML_CHAR_ENCODING_UTF8);
    if (!parser) return 1;
    for (size_t len; (len = fread(bytes, 1, PIECE, stdin)) > 0;) htmlParseChunk(parser, bytes, (int)len, 0);
    htmlParseChunk(parser, bytes, 0, 1);
    htmlFreeParserCtxt(parser);
    printf("tags %lu, attributes %lu, texts of %lu bytes, comments %lu\n", found.tags, found.attributes, found.text_bytes,
           found.comments);
    return 0;
}
