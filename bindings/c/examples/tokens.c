/*
 * Prints the tokens of a page, a line each, as html5tok does.
 *
 *     tokens [PIECE [places]] < PAGE
 *
 * The page is fed in pieces of PIECE bytes, or 4096. With `places` each line begins with the byte of the page where the token
 * begins, and the byte after its last; then nothing pauses.
 */
#include "../firnuubal.h"

#include <inttypes.h>
#include <stdio.h>

static void print_quoted(html5_text text) {
    putchar('"');
    for (size_t at = 0; at < text.len; at++) {
        unsigned char byte = (unsigned char)text.at[at];
        if (byte == '\\' || byte == '"') printf("\\%c", byte);
        else if (byte == '\n') printf("\\n");
        else if (byte < 0x20 || byte == 0x7F) printf("\\u{%x}", byte);
        else putchar(byte);
    }
    putchar('"');
}

static void print_text(const char *word, const html5_token *token) {
    printf("%s %" PRIu64 " ", word, token->line);
    print_quoted(token->text);
    putchar('\n');
}

static void print_tag(const char *word, const html5_token *token) {
    printf("%s %" PRIu64 " ", word, token->line);
    print_quoted(token->text);
    html5_attributes left = token->attributes;
    for (html5_text name, value; html5_next_attribute(&left, &name, &value);) {
        putchar(' ');
        print_quoted(name);
        putchar('=');
        print_quoted(value);
    }
    if (token->self_closing) printf(" self-closing");
    if (token->duplicate_attributes) printf(" duplicates");
    putchar('\n');
}

static void print_part(bool is_there, html5_text part) {
    putchar(' ');
    if (is_there) print_quoted(part);
    else putchar('-');
}

static void print_doctype(const html5_token *token) {
    printf("doctype %" PRIu64, token->line);
    print_part(token->has_name, token->text);
    print_part(token->has_public_id, token->public_id);
    print_part(token->has_system_id, token->system_id);
    puts(token->force_quirks ? " quirks" : "");
}

static void print_token(const html5_token *token) {
    if (token->begin != HTML5_NO_PLACE) printf("%" PRIu64 " %" PRIu64 " ", token->begin, token->end);
    switch (token->kind) {
    case HTML5_START_TAG: print_tag("start", token); break;
    case HTML5_END_TAG: print_tag("end", token); break;
    case HTML5_TEXT: printf("text "); print_quoted(token->text); putchar('\n'); break;
    case HTML5_COMMENT: print_text("comment", token); break;
    case HTML5_INSTRUCTION: print_text("pi", token); break;
    case HTML5_DOCTYPE: print_doctype(token); break;
    case HTML5_NULL_CHARACTER: printf("null %" PRIu64 "\n", token->line); break;
    case HTML5_PARSE_ERROR: print_text("error", token); break;
    case HTML5_END: printf("eof %" PRIu64 "\n", token->line); break;
    }
}

/* The value of the first attribute named `charset`. */
static html5_text charset_of(const html5_token *token) {
    html5_attributes left = token->attributes;
    html5_text name, value = {"", 0};
    while (html5_next_attribute(&left, &name, &value))
        if (name.len == 7 && memcmp(name.at, "charset", 7) == 0) break;
    return value;
}

/* Prints the waiting tokens, and after a pause its line. */
static bool print_waiting(html5_reader *reader, html5_handle *handle, html5_status status) {
    html5_token token;
    if (!html5_fill(reader, handle)) return false;
    while (html5_next_token(reader, &token)) print_token(&token);
    if (status == HTML5_SCRIPT) puts("pause script");
    if (status == HTML5_ENCODING) {
        printf("pause encoding ");
        print_quoted(charset_of(&token));
        putchar('\n');
    }
    return true;
}

/* Feeds a piece, past all pauses. */
static html5_status feed(html5_reader *reader, html5_handle *handle, const uint8_t *bytes, size_t len) {
    for (;;) {
        html5_status status = html5_feed(handle, bytes, len);
        if (!print_waiting(reader, handle, status)) return HTML5_NO_MEMORY;
        if (status != HTML5_SCRIPT && status != HTML5_ENCODING) return status;
        len = 0;
    }
}

static html5_status print_page(html5_reader *reader, html5_handle *handle, size_t piece, bool places) {
    static uint8_t bytes[1 << 16];
    html5_options options = {.replies = places ? HTML5_STANDARD_REPLIES : HTML5_PAUSING_REPLIES, .places = places};
    html5_status status = html5_new(handle, bytes, 0, &options);
    for (size_t len; status == HTML5_DONE && (len = fread(bytes, 1, piece, stdin)) > 0;)
        status = feed(reader, handle, bytes, len);
    if (status == HTML5_DONE) status = html5_end(handle);
    if (!print_waiting(reader, handle, HTML5_DONE)) return HTML5_NO_MEMORY;
    return status;
}

int main(int count, char **words) {
    size_t piece = count > 1 ? strtoul(words[1], NULL, 10) : 4096;
    bool places = count > 2 && strcmp(words[2], "places") == 0;
    if (piece == 0 || piece > 1 << 16 || count > 2 + places) return 2;
    html5_handle handle = {0};
    html5_reader reader = {0};
    html5_status status = print_page(&reader, &handle, piece, places);
    if (status == HTML5_NOT_UTF8)
        fprintf(stderr, "byte %" PRIu64 ": invalid UTF-8\n", html5_error_at(&handle));
    else if (status != HTML5_DONE)
        fprintf(stderr, "status %" PRIu32 "\n", status);
    html5_reader_free(&reader);
    html5_free(&handle);
    return (int)status;
}
