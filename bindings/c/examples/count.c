/*
 * Counts the tokens of a page, which it reads as it arrives from standard input, or those of files, a page each, in one handle.
 *
 *     count [PIECE [FILE..]] < PAGE
 *
 * A page is fed in pieces of PIECE bytes, or 65,536.
 */
#include "../firnuubal.h"

#include <inttypes.h>
#include <stdio.h>

typedef struct {
    uint64_t tags, attributes, attribute_bytes, texts, text_bytes, comments, errors;
} counts;

static void count_tag(counts *found, const html5_token *token) {
    found->tags++;
    html5_attributes left = token->attributes;
    for (html5_text name, value; html5_next_attribute(&left, &name, &value);) {
        found->attributes++;
        found->attribute_bytes += name.len + value.len;
    }
}

static void count_token(counts *found, const html5_token *token) {
    switch (token->kind) {
    case HTML5_START_TAG:
    case HTML5_END_TAG: count_tag(found, token); break;
    case HTML5_TEXT: found->texts++; found->text_bytes += token->text.len; break;
    case HTML5_COMMENT: found->comments++; break;
    case HTML5_PARSE_ERROR: found->errors++; break;
    default: break;
    }
}

static bool count_waiting(counts *found, html5_reader *reader, html5_handle *handle) {
    html5_token token;
    if (!html5_fill(reader, handle)) return false;
    while (html5_next_token(reader, &token)) count_token(found, &token);
    return true;
}

/* Begins a page, in the handle of the page before it if there is one. */
static html5_status begin(html5_handle *handle) {
    static const html5_options options;
    const uint8_t *no_tag = (const uint8_t *)"";
    return handle->is_open ? html5_restart(handle, no_tag, 0, &options) : html5_new(handle, no_tag, 0, &options);
}

static html5_status count_page(counts *found, html5_reader *reader, html5_handle *handle, FILE *page, size_t piece) {
    static uint8_t bytes[1 << 16];
    html5_status status = begin(handle);
    for (size_t len; status == HTML5_DONE && (len = fread(bytes, 1, piece, page)) > 0;) {
        status = html5_feed(handle, bytes, len);
        if (!count_waiting(found, reader, handle)) return HTML5_NO_MEMORY;
    }
    if (status == HTML5_DONE) status = html5_end(handle);
    return count_waiting(found, reader, handle) ? status : HTML5_NO_MEMORY;
}

/* Counts each file, up to the first that can't be read. */
static html5_status count_files(counts *found, html5_reader *reader, html5_handle *handle, char **names, size_t piece) {
    html5_status status = HTML5_DONE;
    for (; status == HTML5_DONE && *names; names++) {
        FILE *page = fopen(*names, "rb");
        if (!page) {
            perror(*names);
            return HTML5_CLOSED;
        }
        status = count_page(found, reader, handle, page, piece);
        fclose(page);
    }
    return status;
}

int main(int count, char **words) {
    size_t piece = count > 1 ? strtoul(words[1], NULL, 10) : 1 << 16;
    if (piece == 0 || piece > 1 << 16) return 2;
    html5_handle handle = {0};
    html5_reader reader = {0};
    counts found = {0};
    html5_status status = count > 2 ? count_files(&found, &reader, &handle, words + 2, piece)
                                    : count_page(&found, &reader, &handle, stdin, piece);
    html5_reader_free(&reader);
    html5_free(&handle);
    printf("tags %" PRIu64 ", attributes %" PRIu64 " of %" PRIu64 " bytes, texts %" PRIu64 " of %" PRIu64 " bytes, comments %" PRIu64 ", errors %" PRIu64 "\n",
           found.tags, found.attributes, found.attribute_bytes, found.texts, found.text_bytes, found.comments, found.errors);
    return (int)status;
}
