/*
 * The reader of records over more than one page, and over many fills. `bindings/check.sh` runs it.
 */
#include "../firnuubal.h"

#include <stdio.h>

static int failed;

#define CHECK(holds) \
    do { \
        if (!(holds)) { \
            fprintf(stderr, "%s:%d: %s\n", __FILE__, __LINE__, #holds); \
            failed = 1; \
        } \
    } while (0)

static const html5_options plain, placed = {HTML5_DATA, HTML5_STANDARD_REPLIES, false, false, false, true};

static html5_status open_page(html5_handle *handle) {
    return html5_new(handle, (const uint8_t *)"", 0, &plain);
}

static html5_status restart(html5_handle *handle, const html5_options *options) {
    return html5_restart(handle, (const uint8_t *)"", 0, options);
}

static html5_status feed(html5_handle *handle, const char *text) {
    return html5_feed(handle, text, strlen(text));
}

/* Whether the next token has this text. */
static bool is_next(html5_reader *reader, enum html5_kind kind, const char *text) {
    html5_token token;
    do {
        if (!html5_next_token(reader, &token)) return false;
    } while (token.kind == HTML5_PARSE_ERROR);
    return token.kind == kind && token.text.len == strlen(text) && memcmp(token.text.at, text, token.text.len) == 0;
}

/* Whether all records of another page are of it alone: `<b>second`, to its end. */
static bool reads_the_second_alone(html5_reader *reader, html5_handle *handle) {
    html5_token token;
    return feed(handle, "<b>second") == HTML5_DONE && html5_end(handle) == HTML5_DONE && html5_fill(reader, handle) &&
           is_next(reader, HTML5_START_TAG, "b") && is_next(reader, HTML5_TEXT, "second") &&
           is_next(reader, HTML5_END, "") && !html5_next_token(reader, &token) && reader->stop == HTML5_ALL_READ;
}

/* Leaves of a first page a tag that was not read, and a text whose end has not come. */
static void begin_the_first(html5_reader *reader, html5_handle *handle) {
    CHECK(open_page(handle) == HTML5_DONE);
    CHECK(feed(handle, "<p><i>first") == HTML5_DONE);
    CHECK(html5_fill(reader, handle));
    CHECK(is_next(reader, HTML5_START_TAG, "p"));
}

static void reads_one_page_after_another(void) {
    html5_handle handle = {0};
    html5_reader reader = {0};
    begin_the_first(&reader, &handle);
    CHECK(restart(&handle, &plain) == HTML5_DONE);
    CHECK(reads_the_second_alone(&reader, &handle));
    begin_the_first(&reader, &handle);
    CHECK(open_page(&handle) == HTML5_DONE);
    CHECK(reads_the_second_alone(&reader, &handle));
    begin_the_first(&reader, &handle);
    html5_free(&handle);
    CHECK(open_page(&handle) == HTML5_DONE);
    CHECK(reads_the_second_alone(&reader, &handle));
    html5_reader_free(&reader);
    html5_free(&handle);
}

/* A handle of its own for each page, at the same place: each begins with zeros. */
static void reads_pages_of_handles(void) {
    html5_reader reader = {0};
    for (int round = 0; round < 3; round++) {
        html5_handle handle = {0};
        begin_the_first(&reader, &handle);
        html5_free(&handle);
        html5_handle other = {0};
        CHECK(open_page(&other) == HTML5_DONE);
        CHECK(reads_the_second_alone(&reader, &other));
        html5_free(&other);
    }
    html5_reader_free(&reader);
}

/* A page that goes on keeps what was not read: after what is refused, too. */
static void keeps_a_page_that_goes_on(void) {
    html5_handle handle = {0};
    html5_reader reader = {0};
    begin_the_first(&reader, &handle);
    CHECK(restart(&handle, &placed) == HTML5_BAD_OPTION);
    CHECK(html5_cleaner_begin(&handle) == HTML5_CLOSED);
    CHECK(html5_cleaner_restart(&handle) == HTML5_CLOSED);
    CHECK(feed(&handle, " page") == HTML5_DONE && html5_end(&handle) == HTML5_DONE);
    CHECK(html5_fill(&reader, &handle));
    CHECK(is_next(&reader, HTML5_START_TAG, "i") && is_next(&reader, HTML5_TEXT, "first page"));
    CHECK(is_next(&reader, HTML5_END, ""));
    html5_reader_free(&reader);
    html5_free(&handle);
}

/* Places that were read of the page before are not those of a token without. */
static void forgets_places(void) {
    html5_handle handle = {0};
    html5_reader reader = {0};
    html5_token token;
    CHECK(html5_new(&handle, (const uint8_t *)"", 0, &placed) == HTML5_DONE);
    CHECK(feed(&handle, "<p><i>first") == HTML5_DONE);
    CHECK(html5_fill(&reader, &handle));
    CHECK(html5_next_token(&reader, &token) && token.begin == 0 && token.end == 3);
    CHECK(open_page(&handle) == HTML5_DONE);
    CHECK(feed(&handle, "<b>") == HTML5_DONE);
    CHECK(html5_fill(&reader, &handle));
    CHECK(html5_next_token(&reader, &token) && token.begin == HTML5_NO_PLACE && token.text.len == 1);
    html5_reader_free(&reader);
    html5_free(&handle);
}

/* After the handle is freed, what was taken can still be read, until the next fill. */
static void reads_what_was_taken(void) {
    html5_handle handle = {0};
    html5_reader reader = {0};
    html5_token token;
    begin_the_first(&reader, &handle);
    html5_free(&handle);
    CHECK(is_next(&reader, HTML5_START_TAG, "i"));
    CHECK(html5_fill(&reader, &handle));
    CHECK(!html5_next_token(&reader, &token) && reader.stop == HTML5_ALL_READ);
    html5_reader_free(&reader);
}

/* How many bytes a fill moved: those that were not read, where the first of them is at the front now and was not before. */
static size_t fill_and_count(html5_reader *reader, html5_handle *handle) {
    size_t at = reader->at, left = reader->len - reader->at;
    CHECK(html5_fill(reader, handle));
    return at > 0 && reader->at == 0 ? left : 0;
}

/* One token is read of each fill, and more wait each time. All that is moved is of the order of what was read. */
static void moves_few_bytes(void) {
    enum { FILLS = 20000 };
    html5_handle handle = {0};
    html5_reader reader = {0};
    html5_token token;
    size_t moved = 0, tokens = 0;
    CHECK(open_page(&handle) == HTML5_DONE);
    for (int fill = 0; fill < FILLS; fill++) {
        CHECK(feed(&handle, "<p>text</p><p>text</p>") == HTML5_DONE);
        moved += fill_and_count(&reader, &handle);
        tokens += html5_next_token(&reader, &token);
    }
    CHECK(tokens == FILLS);
    CHECK(moved <= reader.len);
    while (html5_next_token(&reader, &token)) tokens++;
    CHECK(tokens == 6 * FILLS && reader.stop == HTML5_ALL_READ);
    html5_reader_free(&reader);
    html5_free(&handle);
}

/* Where all is read after each fill, the room stays what it was at first. */
static void holds_little(void) {
    html5_handle handle = {0};
    html5_reader reader = {0};
    html5_token token;
    CHECK(open_page(&handle) == HTML5_DONE);
    for (int fill = 0; fill < 20000; fill++) {
        CHECK(feed(&handle, "<p class=a>1</p>") == HTML5_DONE);
        CHECK(html5_fill(&reader, &handle));
        while (html5_next_token(&reader, &token)) {
        }
    }
    CHECK(reader.room <= 1 << 16);
    html5_reader_free(&reader);
    html5_free(&handle);
}

int main(void) {
    reads_one_page_after_another();
    reads_pages_of_handles();
    keeps_a_page_that_goes_on();
    forgets_places();
    reads_what_was_taken();
    moves_few_bytes();
    holds_little();
    return failed;
}
