/*
 * Calls of the library, what each answers, and the very bytes of the records. `bindings/check.sh` runs it.
 */
#include "../firnuubal.h"

#include <stdio.h>
#include <time.h>

static int failed;

#define CHECK(holds) \
    do { \
        if (!(holds)) { \
            fprintf(stderr, "%s:%d: %s\n", __FILE__, __LINE__, #holds); \
            failed = 1; \
        } \
    } while (0)

static html5_status feed(html5_handle *handle, const char *text) {
    return html5_feed(handle, (const uint8_t *)text, strlen(text));
}

static html5_status insert(html5_handle *handle, const char *text) {
    return html5_insert(handle, (const uint8_t *)text, strlen(text));
}

static html5_status open_after(html5_handle *handle, const char *last_start_tag, html5_options options) {
    return html5_new(handle, (const uint8_t *)last_start_tag, strlen(last_start_tag), &options);
}

/* Whether the next bytes, as many as there is room for, are these. */
static bool takes(html5_handle *handle, size_t room, const char *bytes, size_t len) {
    uint8_t out[256];
    size_t taken = html5_take(handle, out, room);
    return taken == len && memcmp(out, bytes, len) == 0;
}

#define TAKES(handle, room, bytes) takes(handle, room, bytes, sizeof bytes - 1)

/* Whether the next token that was sent, past errors, is of this kind and has this text. */
static bool is_next(html5_reader *reader, html5_handle *handle, enum html5_kind kind, const char *text) {
    html5_token token;
    if (!html5_fill(reader, handle)) return false;
    do {
        if (!html5_next_token(reader, &token)) return false;
    } while (token.kind == HTML5_PARSE_ERROR);
    return token.kind == kind && token.text.len == strlen(text) && memcmp(token.text.at, text, token.text.len) == 0;
}

static void reads_a_page_in_pieces(void) {
    html5_handle handle = {0};
    html5_options options = {0};
    CHECK(open_after(&handle, "", options) == HTML5_DONE);
    CHECK(feed(&handle, "1 &l") == HTML5_DONE);
    CHECK(feed(&handle, "t; \xc3") == HTML5_DONE);
    CHECK(html5_end(&handle) == HTML5_CUT);
    CHECK(feed(&handle, "\xa9</p") == HTML5_DONE);
    CHECK(feed(&handle, ">") == HTML5_DONE);
    CHECK(html5_feed(&handle, NULL, 0) == HTML5_DONE);
    CHECK(TAKES(&handle, 4, "\x03" "1 <"));
    CHECK(!html5_is_over(&handle));
    CHECK(html5_end(&handle) == HTML5_DONE);
    CHECK(html5_is_over(&handle));
    CHECK(TAKES(&handle, 64, " \xc3\xa9\xff\x02\x01\0\0\0\0\0\0\0\0\x01\0\0\0\0\0\0\0p\0\0\0\0\0\0\0\0\x09\x01\0\0\0\0\0\0\0"));
    CHECK(TAKES(&handle, 64, ""));
    CHECK(feed(&handle, "x") == HTML5_OVER);
    CHECK(feed(&handle, "\xff") == HTML5_OVER);
    CHECK(insert(&handle, "x") == HTML5_OVER);
    CHECK(insert(&handle, "\xff") == HTML5_OVER);
    CHECK(html5_end(&handle) == HTML5_OVER);
    html5_free(&handle);
}

static void pauses_and_lets_text_in(void) {
    html5_handle handle = {0};
    html5_options options = {.replies = HTML5_PAUSING_REPLIES};
    uint8_t out[256];
    CHECK(open_after(&handle, "", options) == HTML5_DONE);
    CHECK(feed(&handle, "</script>b<meta charset=x>c") == HTML5_SCRIPT);
    CHECK(html5_end(&handle) == HTML5_WAITING);
    CHECK(html5_take(&handle, out, sizeof out) == 32);
    CHECK(insert(&handle, "\xff") == HTML5_NOT_UTF8);
    CHECK(insert(&handle, "a") == HTML5_DONE);
    CHECK(feed(&handle, "") == HTML5_ENCODING);
    CHECK(TAKES(&handle, 4, "\x03" "ab\xff"));
    CHECK(feed(&handle, "d") == HTML5_DONE);
    CHECK(html5_end(&handle) == HTML5_DONE);
    html5_free(&handle);
}

/* A text put in front of the waiting text is read before it, tags too. */
static void reads_inserted_text_first(void) {
    html5_handle handle = {0};
    html5_reader reader = {0};
    html5_options options = {.replies = HTML5_PAUSING_REPLIES};
    CHECK(open_after(&handle, "", options) == HTML5_DONE);
    CHECK(feed(&handle, "<script>a</script>c<meta charset=x>d") == HTML5_SCRIPT);
    CHECK(insert(&handle, "<b>") == HTML5_DONE);
    CHECK(feed(&handle, "") == HTML5_ENCODING);
    CHECK(feed(&handle, "e") == HTML5_DONE);
    CHECK(html5_end(&handle) == HTML5_DONE);
    CHECK(is_next(&reader, &handle, HTML5_START_TAG, "script") && is_next(&reader, &handle, HTML5_TEXT, "a"));
    CHECK(is_next(&reader, &handle, HTML5_END_TAG, "script") && is_next(&reader, &handle, HTML5_START_TAG, "b"));
    CHECK(is_next(&reader, &handle, HTML5_TEXT, "c") && is_next(&reader, &handle, HTML5_START_TAG, "meta"));
    CHECK(is_next(&reader, &handle, HTML5_TEXT, "de") && is_next(&reader, &handle, HTML5_END, ""));
    html5_reader_free(&reader);
    html5_free(&handle);
}

static void says_where_bytes_are_no_text(void) {
    html5_handle handle = {0};
    html5_options options = {.state = HTML5_RCDATA};
    CHECK(open_after(&handle, "title", options) == HTML5_DONE);
    CHECK(html5_error_at(&handle) == 0);
    CHECK(feed(&handle, "<b>") == HTML5_DONE);
    CHECK(feed(&handle, "c\xff") == HTML5_NOT_UTF8);
    CHECK(html5_error_at(&handle) == 4);
    CHECK(TAKES(&handle, 8, "\x03<b>c"));
    CHECK(feed(&handle, "d") == HTML5_DONE);
    CHECK(html5_end(&handle) == HTML5_DONE);
    html5_free(&handle);
}

/* A character that two feeds bring, and after it a byte that is not one: the byte alone is refused. */
static void refuses_no_byte_before_the_place(void) {
    html5_handle handle = {0};
    html5_reader reader = {0};
    html5_options options = {.replies = HTML5_NO_REPLIES};
    CHECK(open_after(&handle, "", options) == HTML5_DONE);
    CHECK(feed(&handle, "ab\xc3") == HTML5_DONE);
    CHECK(html5_end(&handle) == HTML5_CUT);
    CHECK(feed(&handle, "\xa9" "c\xff" "d") == HTML5_NOT_UTF8);
    CHECK(html5_error_at(&handle) == 5);
    CHECK(feed(&handle, "d") == HTML5_DONE);
    CHECK(html5_end(&handle) == HTML5_DONE);
    CHECK(is_next(&reader, &handle, HTML5_TEXT, "ab\xc3\xa9" "cd") && is_next(&reader, &handle, HTML5_END, ""));
    html5_reader_free(&reader);
    html5_free(&handle);
}

/* Where the next feed doesn't go on with a character, what was held of it is refused, and dropped. */
static void drops_a_character_that_is_cut_off(void) {
    html5_handle handle = {0};
    html5_reader reader = {0};
    html5_options options = {0};
    CHECK(open_after(&handle, "", options) == HTML5_DONE);
    CHECK(feed(&handle, "a\xe2\x82") == HTML5_DONE);
    CHECK(feed(&handle, "x\xff") == HTML5_NOT_UTF8);
    CHECK(html5_error_at(&handle) == 1);
    CHECK(feed(&handle, "x") == HTML5_DONE);
    CHECK(html5_end(&handle) == HTML5_DONE);
    CHECK(is_next(&reader, &handle, HTML5_TEXT, "ax") && is_next(&reader, &handle, HTML5_END, ""));
    html5_reader_free(&reader);
    html5_free(&handle);
}

static void pauses_before_bytes_that_are_no_text(void) {
    html5_handle handle = {0};
    html5_reader reader = {0};
    html5_options options = {.replies = HTML5_PAUSING_REPLIES};
    CHECK(open_after(&handle, "", options) == HTML5_DONE);
    CHECK(feed(&handle, "<script></script>a\xff" "b") == HTML5_SCRIPT);
    CHECK(html5_error_at(&handle) == 0);
    CHECK(html5_end(&handle) == HTML5_WAITING);
    CHECK(feed(&handle, "c") == HTML5_NOT_UTF8);
    CHECK(html5_error_at(&handle) == 18);
    CHECK(feed(&handle, "d<meta charset=x>\xc0") == HTML5_ENCODING);
    CHECK(html5_end(&handle) == HTML5_NOT_UTF8);
    CHECK(html5_error_at(&handle) == 35);
    CHECK(html5_end(&handle) == HTML5_DONE);
    CHECK(is_next(&reader, &handle, HTML5_START_TAG, "script") && is_next(&reader, &handle, HTML5_END_TAG, "script"));
    CHECK(is_next(&reader, &handle, HTML5_TEXT, "ad") && is_next(&reader, &handle, HTML5_START_TAG, "meta"));
    CHECK(is_next(&reader, &handle, HTML5_END, ""));
    html5_reader_free(&reader);
    html5_free(&handle);
}

/* Takes all that waits. */
/* How long it takes to insert 3,000 texts before so many bytes that wait. */
static clock_t time_of_inserting(size_t waiting) {
    static const char *const texts[] = {"x</script>", "\xc3\xa9</script>", "\xe2\x98\x83y</script>"};
    html5_handle handle = {0};
    html5_options options = {.replies = HTML5_PAUSING_REPLIES};
    uint8_t *page = malloc(waiting);
    CHECK(page != NULL);
    memset(page, 'a', waiting);
    memcpy(page, "</script>", 9);
    CHECK(open_after(&handle, "", options) == HTML5_DONE);
    CHECK(html5_feed(&handle, page, waiting) == HTML5_SCRIPT);
    clock_t begun = clock();
    for (size_t at = 0; at < 3000; at++) {
        CHECK(insert(&handle, texts[at % 3]) == HTML5_DONE);
        CHECK(feed(&handle, "") == HTML5_SCRIPT);
    }
    clock_t taken = clock() - begun;
    html5_free(&handle);
    free(page);
    return taken;
}

/* An insert doesn't copy the text that waits. When it did, this took seconds. */
static void inserts_before_much_text(void) {
    clock_t little = time_of_inserting(20000), much = time_of_inserting(12000000);
    CHECK(much < 10 * little + CLOCKS_PER_SEC / 2);
}

static void take_all(html5_handle *handle) {
    uint8_t out[256];
    while (html5_take(handle, out, sizeof out)) {
    }
}

static void holds_no_more_than_its_limit(void) {
    html5_handle handle = {0};
    html5_options options = {0};
    CHECK(html5_set_limit(&handle, 10) == HTML5_CLOSED);
    CHECK(open_after(&handle, "", options) == HTML5_DONE);
    CHECK(html5_set_limit(&handle, 10) == HTML5_DONE);
    CHECK(feed(&handle, "<a href=abc") == HTML5_LIMIT);
    CHECK(feed(&handle, "<a href=ab") == HTML5_DONE);
    CHECK(feed(&handle, ">") == HTML5_LIMIT);
    CHECK(html5_set_limit(&handle, 11) == HTML5_DONE);
    CHECK(feed(&handle, ">") == HTML5_DONE);
    CHECK(feed(&handle, "x") == HTML5_LIMIT);
    take_all(&handle);
    CHECK(feed(&handle, "0123456789a") == HTML5_DONE);
    CHECK(insert(&handle, "\xff") == HTML5_LIMIT);
    take_all(&handle);
    CHECK(insert(&handle, "\xff") == HTML5_NOT_UTF8);
    CHECK(insert(&handle, "0123456789ab") == HTML5_LIMIT);
    CHECK(insert(&handle, "0123456789a") == HTML5_DONE);
    CHECK(html5_feed(&handle, NULL, 0) == HTML5_DONE);
    CHECK(html5_end(&handle) == HTML5_DONE);
    CHECK(feed(&handle, "0123456789ab") == HTML5_OVER);
    html5_free(&handle);
}

/* What comes out counts, too: each NUL makes two records, which are much longer. */
static void counts_records_that_wait(void) {
    static const uint8_t nulls[10000];
    html5_handle handle = {0};
    html5_options options = {0};
    CHECK(open_after(&handle, "", options) == HTML5_DONE);
    CHECK(html5_set_limit(&handle, 100000) == HTML5_DONE);
    CHECK(html5_feed(&handle, nulls, sizeof nulls) == HTML5_DONE);
    CHECK(feed(&handle, "x") == HTML5_LIMIT);
    CHECK(insert(&handle, "x") == HTML5_LIMIT);
    take_all(&handle);
    CHECK(feed(&handle, "x") == HTML5_DONE);
    html5_free(&handle);
}

/* After a pause the fed bytes count until all of them are read, and so does what is put in front. */
static void counts_what_waits_after_a_pause(void) {
    html5_handle handle = {0};
    html5_options options = {.replies = HTML5_PAUSING_REPLIES};
    CHECK(open_after(&handle, "", options) == HTML5_DONE);
    CHECK(html5_set_limit(&handle, 10) == HTML5_DONE);
    CHECK(feed(&handle, "</script>") == HTML5_SCRIPT);
    take_all(&handle);
    CHECK(feed(&handle, "12") == HTML5_LIMIT);
    CHECK(insert(&handle, "12") == HTML5_LIMIT);
    CHECK(insert(&handle, "1") == HTML5_DONE);
    CHECK(feed(&handle, "2") == HTML5_LIMIT);
    CHECK(feed(&handle, "") == HTML5_DONE);
    take_all(&handle);
    CHECK(feed(&handle, "0123456789a") == HTML5_LIMIT);
    CHECK(feed(&handle, "0123456789") == HTML5_DONE);
    html5_free(&handle);
}

/* Why there is no next token: all is read, or a text is open. */
static void says_why_there_is_no_token(void) {
    html5_handle handle = {0};
    html5_reader reader = {0};
    html5_token token;
    html5_options options = {0};
    CHECK(open_after(&handle, "", options) == HTML5_DONE);
    CHECK(feed(&handle, "<p>1") == HTML5_DONE);
    CHECK(html5_fill(&reader, &handle));
    CHECK(html5_next_token(&reader, &token) && token.kind == HTML5_START_TAG);
    CHECK(!html5_next_token(&reader, &token) && reader.stop == HTML5_TEXT_OPEN);
    CHECK(html5_end(&handle) == HTML5_DONE);
    CHECK(html5_fill(&reader, &handle));
    CHECK(html5_next_token(&reader, &token) && token.kind == HTML5_TEXT && token.text.len == 1);
    CHECK(html5_next_token(&reader, &token) && token.kind == HTML5_END);
    CHECK(!html5_next_token(&reader, &token) && reader.stop == HTML5_ALL_READ);
    reader.bytes[0] = HTML5_COMMENT;
    reader.at = 0;
    reader.len = 5;
    CHECK(!html5_next_token(&reader, &token) && reader.stop == HTML5_NOT_WHOLE);
    html5_reader_free(&reader);
    html5_free(&handle);
}

static void lets_the_caller_reply(void) {
    html5_handle handle = {0};
    html5_reader reader = {0};
    html5_options options = {.replies = HTML5_CALLER_REPLIES};
    CHECK(open_after(&handle, "", options) == HTML5_DONE);
    CHECK(feed(&handle, "<style><b></style><svg><![CDATA[<c>]]></svg><![CDATA[d]]>") == HTML5_TAG);
    CHECK(is_next(&reader, &handle, HTML5_START_TAG, "style"));
    CHECK(html5_reply(&handle, 6) == HTML5_BAD_OPTION);
    CHECK(html5_reply(&handle, HTML5_RAWTEXT) == HTML5_DONE);
    CHECK(html5_end(&handle) == HTML5_WAITING);
    CHECK(feed(&handle, "") == HTML5_TAG);
    CHECK(is_next(&reader, &handle, HTML5_TEXT, "<b>") && is_next(&reader, &handle, HTML5_END_TAG, "style"));
    CHECK(feed(&handle, "") == HTML5_TAG);
    CHECK(is_next(&reader, &handle, HTML5_START_TAG, "svg"));
    CHECK(html5_set_foreign(&handle, true) == HTML5_DONE);
    CHECK(feed(&handle, "") == HTML5_TAG);
    CHECK(is_next(&reader, &handle, HTML5_TEXT, "<c>") && is_next(&reader, &handle, HTML5_END_TAG, "svg"));
    CHECK(html5_set_foreign(&handle, false) == HTML5_DONE);
    CHECK(feed(&handle, "<p") == HTML5_DONE);
    CHECK(is_next(&reader, &handle, HTML5_COMMENT, "[CDATA[d]]"));
    CHECK(html5_reply(&handle, HTML5_RAWTEXT) == HTML5_ITEM_OPEN);
    CHECK(feed(&handle, ">") == HTML5_TAG);
    CHECK(feed(&handle, "") == HTML5_DONE);
    CHECK(html5_end(&handle) == HTML5_DONE);
    CHECK(html5_reply(&handle, 6) == HTML5_OVER);
    html5_reader_free(&reader);
    html5_free(&handle);
}

static html5_status set_encoding(html5_handle *handle, const char *label) {
    return html5_set_encoding(handle, label, strlen(label));
}

/* Whether this is the name of the encoding, as much as there is room for. */
static bool is_in(html5_handle *handle, size_t room, const char *name) {
    char out[32];
    size_t len = html5_encoding(handle, (uint8_t *)out, room);
    return len == strlen(name) && memcmp(out, name, len) == 0;
}

/* Whether this is the code of a message, as much as there is room for. */
static bool is_code(const char *message, size_t message_len, size_t room, const char *code) {
    uint8_t out[HTML5_ERROR_CODE_ROOM];
    size_t len = html5_error_code(message, message_len, out, room);
    return len == strlen(code) && memcmp(out, code, len) == 0;
}

/* Whether the first error that a page tells has this code. */
static bool has_code(const char *page, const char *code) {
    html5_handle handle = {0};
    html5_reader reader = {0};
    html5_options options = {0};
    html5_token token = {0};
    CHECK(open_after(&handle, "", options) == HTML5_DONE);
    CHECK(feed(&handle, page) == HTML5_DONE && html5_end(&handle) == HTML5_DONE);
    CHECK(html5_fill(&reader, &handle));
    while (html5_next_token(&reader, &token) && token.kind != HTML5_PARSE_ERROR) {
    }
    bool has = token.kind == HTML5_PARSE_ERROR && is_code(token.text.at, token.text.len, HTML5_ERROR_CODE_ROOM, code);
    html5_reader_free(&reader);
    html5_free(&handle);
    return has;
}

/* The codes are those of the standard's "Parse errors". */
static void names_errors_as_the_standard_does(void) {
    CHECK(has_code("<p a=>", "missing-attribute-value"));
    CHECK(has_code("<p a a>", "duplicate-attribute"));
    CHECK(has_code("</p/>", "end-tag-with-trailing-solidus"));
    CHECK(has_code("&nosuch;", "unknown-named-character-reference"));
    CHECK(has_code("<p", "eof-in-tag"));
    CHECK(has_code("<!DOCTYPE a PUBLIC ''\"\">", "missing-whitespace-between-doctype-public-and-system-identifiers"));
    CHECK(has_code("&#0;", ""));
    CHECK(is_code("Duplicate attribute", 19, 9, "duplicate") && is_code("Duplicate attribute", 19, 0, ""));
    CHECK(is_code("Duplicate attribute.", 20, HTML5_ERROR_CODE_ROOM, ""));
    CHECK(is_code("\xff", 1, HTML5_ERROR_CODE_ROOM, "") && is_code(NULL, 0, HTML5_ERROR_CODE_ROOM, ""));
}

/* Bytes are read by what is said of the page, each character whole or cut. */
static void reads_a_page_in_its_encoding(void) {
    html5_handle handle = {0};
    html5_reader reader = {0};
    html5_options options = {0};
    CHECK(set_encoding(&handle, "") == HTML5_CLOSED);
    CHECK(open_after(&handle, "", options) == HTML5_DONE);
    CHECK(set_encoding(&handle, "no-such") == HTML5_BAD_OPTION);
    CHECK(set_encoding(&handle, "\xff") == HTML5_BAD_OPTION);
    CHECK(set_encoding(&handle, "latin1") == HTML5_DONE);
    CHECK(set_encoding(&handle, " Shift-JIS\n") == HTML5_DONE);
    CHECK(feed(&handle, "<p>\x93") == HTML5_DONE);
    CHECK(set_encoding(&handle, "") == HTML5_BEGUN);
    CHECK(is_in(&handle, 32, ""));
    CHECK(TAKES(&handle, 8, ""));
    CHECK(feed(&handle, "\xfa\x96{\xff\x93") == HTML5_DONE);
    CHECK(html5_end(&handle) == HTML5_DONE);
    CHECK(is_in(&handle, 32, "Shift_JIS") && is_in(&handle, 5, "Shift"));
    CHECK(set_encoding(&handle, "") == HTML5_OVER);
    CHECK(html5_error_at(&handle) == 0);
    CHECK(is_next(&reader, &handle, HTML5_START_TAG, "p"));
    CHECK(is_next(&reader, &handle, HTML5_TEXT, "\xe6\x97\xa5\xe6\x9c\xac\xef\xbf\xbd\xef\xbf\xbd"));
    CHECK(is_next(&reader, &handle, HTML5_END, ""));
    html5_reader_free(&reader);
    html5_free(&handle);
}

/* Nothing is said: a mark, a hint, or neither. */
static void determines_the_encoding(void) {
    static const struct {
        const char *page, *name, *text;
    } pages[] = {
        {"\xef\xbb\xbf\xc3\xa9\xff", "UTF-8", "\xc3\xa9\xef\xbf\xbd"},
        {"\xff\xfe\xe9\x01", "UTF-16LE", "\xc7\xa9"},
        {"<meta charset=koi8-r>\xc1", "KOI8-R", "\xd0\xb0"},
        {"caf\xe9", "windows-1252", "caf\xc3\xa9"},
        {"<?xml version='1.0' encoding='koi8-r'?>\xc1", "KOI8-R", NULL},
        {"caf\xc3\xa9", "UTF-8", "caf\xc3\xa9"},
    };
    for (size_t at = 0; at < sizeof pages / sizeof *pages; at++) {
        html5_handle handle = {0};
        html5_reader reader = {0};
        html5_options options = {0};
        CHECK(open_after(&handle, "", options) == HTML5_DONE);
        CHECK(html5_set_encoding(&handle, NULL, 0) == HTML5_DONE);
        for (const char *byte = pages[at].page; *byte; byte++) CHECK(html5_feed(&handle, byte, 1) == HTML5_DONE);
        CHECK(html5_end(&handle) == HTML5_DONE);
        CHECK(is_in(&handle, 32, pages[at].name));
        if (strstr(pages[at].page, "<meta")) CHECK(is_next(&reader, &handle, HTML5_START_TAG, "meta"));
        if (pages[at].text) CHECK(is_next(&reader, &handle, HTML5_TEXT, pages[at].text));
        html5_reader_free(&reader);
        html5_free(&handle);
    }
}

/* What was held may pause at the end. */
static void pauses_at_the_end_of_what_was_held(void) {
    html5_handle handle = {0};
    html5_options options = {.replies = HTML5_PAUSING_REPLIES};
    CHECK(open_after(&handle, "", options) == HTML5_DONE);
    CHECK(html5_set_encoding(&handle, NULL, 0) == HTML5_DONE);
    CHECK(feed(&handle, "</script>b<meta charset=x>c\xe9") == HTML5_DONE);
    CHECK(html5_end(&handle) == HTML5_SCRIPT);
    CHECK(!html5_is_over(&handle));
    CHECK(insert(&handle, "a") == HTML5_DONE);
    CHECK(feed(&handle, "") == HTML5_ENCODING);
    CHECK(html5_end(&handle) == HTML5_DONE);
    CHECK(html5_is_over(&handle));
    html5_free(&handle);
}

/* The first bytes count while they are held. */
static void counts_what_is_held(void) {
    html5_handle handle = {0};
    html5_options options = {0};
    CHECK(open_after(&handle, "", options) == HTML5_DONE);
    CHECK(html5_set_limit(&handle, 4) == HTML5_DONE);
    CHECK(html5_set_encoding(&handle, NULL, 0) == HTML5_DONE);
    CHECK(feed(&handle, "abc") == HTML5_DONE);
    CHECK(feed(&handle, "de") == HTML5_LIMIT);
    CHECK(feed(&handle, "d") == HTML5_DONE);
    CHECK(html5_end(&handle) == HTML5_DONE);
    html5_free(&handle);
}

static void is_closed_until_it_is_opened(void) {
    html5_handle handle = {0};
    html5_options options = {0}, no_state = {.state = 6}, no_replies = {.replies = 4};
    CHECK(feed(&handle, "x") == HTML5_CLOSED);
    CHECK(insert(&handle, "x") == HTML5_CLOSED);
    CHECK(html5_end(&handle) == HTML5_CLOSED);
    CHECK(TAKES(&handle, 8, ""));
    CHECK(html5_error_at(&handle) == 0);
    CHECK(!html5_is_over(&handle));
    CHECK(html5_reply(&handle, HTML5_RAWTEXT) == HTML5_CLOSED);
    CHECK(html5_set_foreign(&handle, true) == HTML5_CLOSED);
    html5_free(&handle);
    CHECK(open_after(&handle, "", no_state) == HTML5_BAD_OPTION);
    CHECK(open_after(&handle, "", no_replies) == HTML5_BAD_OPTION);
    CHECK(open_after(&handle, "\xff", no_state) == HTML5_BAD_OPTION);
    CHECK(open_after(&handle, "\xff", options) == HTML5_NOT_UTF8);
    CHECK(open_after(&handle, "", options) == HTML5_DONE);
    CHECK(feed(&handle, "x") == HTML5_DONE);
    CHECK(open_after(&handle, "", options) == HTML5_DONE);
    CHECK(TAKES(&handle, 8, ""));
    html5_free(&handle);
    CHECK(feed(&handle, "x") == HTML5_CLOSED);
}

/* One page after another in a handle, by one table of names. */
static void begins_another_page(void) {
    html5_handle handle = {0};
    html5_options options = {0}, raw = {.state = HTML5_RCDATA}, no_state = {.state = 6}, placed = {.places = true};
    const uint8_t *title = (const uint8_t *)"title", *no_text = (const uint8_t *)"\xff";
    html5_reader reader = {0};
    CHECK(html5_restart(&handle, title, 0, &options) == HTML5_CLOSED);
    CHECK(open_after(&handle, "", options) == HTML5_DONE);
    CHECK(html5_set_limit(&handle, 20) == HTML5_DONE);
    CHECK(feed(&handle, "1&lt;<b><a b") == HTML5_DONE);
    /* What is refused changes nothing, and the options are looked at before the name. */
    CHECK(html5_restart(&handle, no_text, 1, &no_state) == HTML5_BAD_OPTION);
    CHECK(html5_restart(&handle, title, 0, &placed) == HTML5_BAD_OPTION);
    CHECK(html5_restart(&handle, no_text, 1, &options) == HTML5_NOT_UTF8);
    CHECK(is_next(&reader, &handle, HTML5_TEXT, "1<"));
    CHECK(is_next(&reader, &handle, HTML5_START_TAG, "b"));
    /* The open tag is gone, and the limit stays. The page is read as the options say. */
    CHECK(html5_restart(&handle, title, 5, &raw) == HTML5_DONE);
    CHECK(feed(&handle, "longer than twenty bytes") == HTML5_LIMIT);
    CHECK(feed(&handle, "<b>&gt;") == HTML5_DONE);
    CHECK(feed(&handle, "</title>") == HTML5_DONE);
    CHECK(html5_end(&handle) == HTML5_DONE);
    CHECK(is_next(&reader, &handle, HTML5_TEXT, "<b>>"));
    CHECK(is_next(&reader, &handle, HTML5_END_TAG, "title"));
    CHECK(is_next(&reader, &handle, HTML5_END, ""));
    CHECK(html5_is_over(&handle));
    /* What was not taken is gone. */
    CHECK(html5_restart(&handle, title, 0, &options) == HTML5_DONE);
    CHECK(feed(&handle, "<i>") == HTML5_DONE);
    CHECK(html5_restart(&handle, title, 0, &options) == HTML5_DONE);
    CHECK(TAKES(&handle, 8, ""));
    CHECK(!html5_is_over(&handle));
    /* The encoding that was said is that of the next page, too. */
    CHECK(set_encoding(&handle, "windows-1252") == HTML5_DONE);
    CHECK(feed(&handle, "\xe9") == HTML5_DONE);
    CHECK(html5_restart(&handle, title, 0, &options) == HTML5_DONE);
    CHECK(is_in(&handle, 16, ""));
    CHECK(feed(&handle, "\xe8") == HTML5_DONE);
    CHECK(html5_end(&handle) == HTML5_DONE);
    CHECK(is_in(&handle, 16, "windows-1252"));
    CHECK(is_next(&reader, &handle, HTML5_TEXT, "\xc3\xa8"));
    html5_reader_free(&reader);
    html5_free(&handle);
}

static void adds_places(html5_reader *reader, html5_handle *handle, char *told, size_t room);

/* One page with places after another in a handle: it goes on with places alone, by the same limit. */
static void begins_another_page_with_places(void) {
    html5_handle handle = {0};
    html5_options plain = {0}, placed = {.places = true}, pausing = {.places = true, .replies = HTML5_PAUSING_REPLIES};
    html5_options raw = {.places = true, .state = HTML5_RCDATA}, no_state = {.places = true, .state = 6};
    const uint8_t *title = (const uint8_t *)"title", *no_text = (const uint8_t *)"\xff";
    html5_reader reader = {0};
    char told[64] = "";
    CHECK(open_after(&handle, "", placed) == HTML5_DONE);
    CHECK(html5_set_limit(&handle, 100) == HTML5_DONE);
    CHECK(feed(&handle, "a<b><a c") == HTML5_DONE);
    /* What is refused changes nothing, and the options are looked at before the name. */
    CHECK(html5_restart(&handle, title, 0, &plain) == HTML5_BAD_OPTION);
    CHECK(html5_restart(&handle, title, 0, &pausing) == HTML5_BAD_OPTION);
    CHECK(html5_restart(&handle, no_text, 1, &no_state) == HTML5_BAD_OPTION);
    CHECK(html5_restart(&handle, no_text, 1, &placed) == HTML5_NOT_UTF8);
    adds_places(&reader, &handle, told, sizeof told);
    CHECK(strcmp(told, "3 0-1;1 1-4;") == 0);
    /* The open tag is gone, places are counted from 0, and the limit stays. */
    CHECK(html5_restart(&handle, title, 5, &raw) == HTML5_DONE);
    char page[102] = "";
    memset(page, 'x', 101);
    CHECK(feed(&handle, page) == HTML5_LIMIT);
    CHECK(feed(&handle, "<b></title>") == HTML5_DONE);
    CHECK(html5_end(&handle) == HTML5_DONE);
    told[0] = 0;
    adds_places(&reader, &handle, told, sizeof told);
    CHECK(strcmp(told, "3 0-3;2 3-11;9 11-11;") == 0);
    html5_reader_free(&reader);
    html5_free(&handle);
}

/* The tokens of a page with places: each token but errors, and where it stands. */
static void adds_places(html5_reader *reader, html5_handle *handle, char *told, size_t room) {
    html5_token token;
    CHECK(html5_fill(reader, handle));
    while (html5_next_token(reader, &token)) {
        size_t len = strlen(told);
        if (token.kind != HTML5_PARSE_ERROR)
            snprintf(told + len, room - len, "%d %d-%d;", (int)token.kind, (int)token.begin, (int)token.end);
    }
}

static void tells_where_tokens_stand(void) {
    static const char page[] = "a<p>\xc3\xa9&amp;</p>";
    for (size_t size = 1; size < sizeof page; size++) {
        html5_handle handle = {0};
        html5_reader reader = {0};
        html5_options options = {0};
        options.places = true;
        char told[256] = "";
        CHECK(open_after(&handle, "", options) == HTML5_DONE);
        for (size_t at = 0; at < sizeof page - 1; at += size) {
            size_t left = sizeof page - 1 - at;
            CHECK(html5_feed(&handle, (const uint8_t *)page + at, left < size ? left : size) == HTML5_DONE);
            adds_places(&reader, &handle, told, sizeof told);
        }
        CHECK(insert(&handle, "x") == HTML5_CLOSED);
        CHECK(html5_reply(&handle, HTML5_DATA) == HTML5_CLOSED);
        CHECK(html5_set_foreign(&handle, true) == HTML5_CLOSED);
        CHECK(html5_end(&handle) == HTML5_DONE);
        CHECK(html5_is_over(&handle));
        adds_places(&reader, &handle, told, sizeof told);
        CHECK(strcmp(told, "3 0-1;1 1-4;3 4-11;2 11-15;9 15-15;") == 0);
        html5_reader_free(&reader);
        html5_free(&handle);
    }
}

static void refuses_options_that_places_do_not_go_with(void) {
    html5_handle handle = {0};
    html5_options options = {0};
    options.places = true;
    options.replies = HTML5_PAUSING_REPLIES;
    CHECK(open_after(&handle, "", options) == HTML5_BAD_OPTION);
    options.replies = HTML5_STANDARD_REPLIES;
    options.foreign = true;
    CHECK(open_after(&handle, "", options) == HTML5_BAD_OPTION);
}

static void says_where_a_page_with_places_is_no_utf8(void) {
    html5_handle handle = {0};
    html5_options options = {0};
    options.places = true;
    CHECK(open_after(&handle, "", options) == HTML5_DONE);
    CHECK(feed(&handle, "ab\xff" "c") == HTML5_NOT_UTF8);
    CHECK(html5_error_at(&handle) == 2);
    CHECK(feed(&handle, "<p>\xc3") == HTML5_DONE);
    CHECK(html5_end(&handle) == HTML5_CUT);
    CHECK(html5_set_limit(&handle, 4) == HTML5_DONE);
    CHECK(feed(&handle, "longer") == HTML5_LIMIT);
    html5_free(&handle);
}

int main(void) {
    tells_where_tokens_stand();
    begins_another_page_with_places();
    refuses_options_that_places_do_not_go_with();
    says_where_a_page_with_places_is_no_utf8();
    CHECK(html5_version() == FIRNUUBAL_VERSION_NUMBER);
    reads_a_page_in_pieces();
    pauses_and_lets_text_in();
    reads_inserted_text_first();
    inserts_before_much_text();
    says_where_bytes_are_no_text();
    refuses_no_byte_before_the_place();
    drops_a_character_that_is_cut_off();
    pauses_before_bytes_that_are_no_text();
    holds_no_more_than_its_limit();
    counts_records_that_wait();
    counts_what_waits_after_a_pause();
    says_why_there_is_no_token();
    lets_the_caller_reply();
    names_errors_as_the_standard_does();
    reads_a_page_in_its_encoding();
    determines_the_encoding();
    pauses_at_the_end_of_what_was_held();
    counts_what_is_held();
    is_closed_until_it_is_opened();
    begins_another_page();
    return failed;
}
