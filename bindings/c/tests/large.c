/*
 * Large things: each call takes 20 MiB at once, and a tag has 20,000 attributes. `bindings/check.sh` runs it.
 */
#include "../firnuubal.h"

#include <stdio.h>

#define SIZE ((size_t)20 << 20)

static int failed;
static char *much;

#define CHECK(holds) \
    do { \
        if (!(holds)) { \
            fprintf(stderr, "%s:%d: %s\n", __FILE__, __LINE__, #holds); \
            failed = 1; \
        } \
    } while (0)

/* Whether the tokens of a page are one text, the 20 MiB and `more`, and the end. */
static bool is_one_text(html5_handle *handle, const char *more) {
    html5_reader reader = {0};
    html5_token token;
    bool right = html5_fill(&reader, handle) && html5_next_token(&reader, &token) && token.kind == HTML5_TEXT;
    right = right && token.text.len == SIZE + strlen(more) && memcmp(token.text.at, much, SIZE) == 0;
    right = right && memcmp(token.text.at + SIZE, more, strlen(more)) == 0;
    right = right && html5_next_token(&reader, &token) && token.kind == HTML5_END;
    html5_reader_free(&reader);
    return right;
}

static void reads_much(html5_options options, bool decodes) {
    html5_handle handle = {0};
    CHECK(html5_new(&handle, NULL, 0, &options) == HTML5_DONE);
    if (decodes) CHECK(html5_set_encoding(&handle, NULL, 0) == HTML5_DONE);
    CHECK(html5_feed(&handle, much, SIZE) == HTML5_DONE);
    CHECK(html5_end(&handle) == HTML5_DONE);
    CHECK(is_one_text(&handle, ""));
    html5_free(&handle);
}

static void reads_much_that_is_inserted(void) {
    html5_options options = {.replies = HTML5_PAUSING_REPLIES};
    html5_handle handle = {0};
    uint8_t out[64];
    CHECK(html5_new(&handle, NULL, 0, &options) == HTML5_DONE);
    CHECK(html5_feed(&handle, "</script>b", 10) == HTML5_SCRIPT);
    while (html5_take(&handle, out, sizeof out)) {
    }
    CHECK(html5_insert(&handle, (const uint8_t *)much, SIZE) == HTML5_DONE);
    CHECK(html5_feed(&handle, NULL, 0) == HTML5_DONE);
    CHECK(html5_end(&handle) == HTML5_DONE);
    CHECK(is_one_text(&handle, "b"));
    html5_free(&handle);
}

static void cleans_much(void) {
    html5_handle cleaner = {0};
    uint64_t place;
    uint8_t *kept = malloc(SIZE + 1);
    CHECK(kept != NULL);
    CHECK(html5_cleaner_new(&cleaner, NULL, 0, &place) == HTML5_DONE);
    CHECK(html5_cleaner_feed(&cleaner, much, SIZE) == HTML5_DONE);
    CHECK(html5_cleaner_end(&cleaner) == HTML5_DONE);
    CHECK(html5_cleaner_take(&cleaner, kept, SIZE + 1) == SIZE && memcmp(kept, much, SIZE) == 0);
    html5_free(&cleaner);
    free(kept);
}

static void reads_many_attributes(void) {
    enum { COUNT = 20000 };
    html5_options options = {0};
    html5_handle handle = {0};
    html5_reader reader = {0};
    html5_token token;
    html5_text name, value;
    char wanted[16], *page = malloc(COUNT * 8 + 8), *at = page;
    CHECK(page != NULL);
    at += sprintf(at, "<p");
    for (int number = 0; number < COUNT; number++) at += sprintf(at, " a%d", number);
    at += sprintf(at, ">");
    CHECK(html5_new(&handle, NULL, 0, &options) == HTML5_DONE);
    CHECK(html5_feed(&handle, page, (size_t)(at - page)) == HTML5_DONE);
    CHECK(html5_fill(&reader, &handle) && html5_next_token(&reader, &token) && token.kind == HTML5_START_TAG);
    int found = 0;
    while (html5_next_attribute(&token.attributes, &name, &value)) {
        size_t len = (size_t)sprintf(wanted, "a%d", found++);
        CHECK(name.len == len && memcmp(name.at, wanted, len) == 0 && value.len == 0);
    }
    CHECK(found == COUNT);
    html5_reader_free(&reader);
    html5_free(&handle);
    free(page);
}

int main(void) {
    much = malloc(SIZE);
    CHECK(much != NULL);
    for (size_t at = 0; at < SIZE; at++) much[at] = (char)('a' + at % 25);
    reads_much((html5_options){0}, false);
    reads_much((html5_options){0}, true);
    reads_much((html5_options){.places = true}, false);
    reads_much_that_is_inserted();
    cleans_much();
    reads_many_attributes();
    free(much);
    return failed;
}
