/*
 * Calls of the cleaner, and what each answers. `bindings/check.sh` runs it.
 */
#include "../firnuubal.h"

#include <stdio.h>

static int failed;

#define CHECK(holds) \
    do { \
        if (!(holds)) { \
            fprintf(stderr, "%s:%d: %s\n", __FILE__, __LINE__, #holds); \
            failed = 1; \
        } \
    } while (0)

static html5_status open_by(html5_handle *cleaner, const char *policy, uint64_t *place) {
    *place = 0;
    return html5_cleaner_new(cleaner, (const uint8_t *)policy, strlen(policy), place);
}

static html5_status feed(html5_handle *cleaner, const char *text) {
    return html5_cleaner_feed(cleaner, text, strlen(text));
}

/* Whether all that waits is this text. */
static bool takes(html5_handle *cleaner, size_t room, const char *text) {
    char out[256];
    size_t taken = html5_cleaner_take(cleaner, (uint8_t *)out, room);
    return taken == strlen(text) && memcmp(out, text, taken) == 0;
}

static void cleans_a_page_in_pieces(void) {
    html5_handle cleaner = {0};
    uint64_t place;
    CHECK(open_by(&cleaner, "", &place) == HTML5_DONE);
    CHECK(feed(&cleaner, "<p onclick=x>1 &l") == HTML5_DONE);
    CHECK(feed(&cleaner, "t; \xc3") == HTML5_DONE);
    CHECK(html5_cleaner_end(&cleaner) == HTML5_CUT);
    CHECK(feed(&cleaner, "\xa9</p") == HTML5_DONE);
    CHECK(takes(&cleaner, 2, "<p"));
    CHECK(feed(&cleaner, "><script>2</script>3") == HTML5_DONE);
    CHECK(html5_cleaner_feed(&cleaner, NULL, 0) == HTML5_DONE);
    CHECK(takes(&cleaner, 256, ">1 &#60; \xc3\xa9</p>"));
    CHECK(!html5_cleaner_is_over(&cleaner));
    CHECK(html5_cleaner_end(&cleaner) == HTML5_DONE);
    CHECK(html5_cleaner_is_over(&cleaner));
    CHECK(takes(&cleaner, 256, "3"));
    CHECK(takes(&cleaner, 256, ""));
    CHECK(feed(&cleaner, "x") == HTML5_OVER);
    CHECK(html5_cleaner_end(&cleaner) == HTML5_OVER);
    CHECK(html5_cleaner_restart(&cleaner) == HTML5_DONE);
    CHECK(feed(&cleaner, "<b>4") == HTML5_DONE);
    CHECK(html5_cleaner_end(&cleaner) == HTML5_DONE);
    CHECK(takes(&cleaner, 256, "<b>4</b>"));
    html5_free(&cleaner);
}

/* The next page has the policy of the one before, and nothing that was not taken of it. */
static void cleans_another_page(void) {
    html5_handle cleaner = {0};
    uint64_t place;
    CHECK(open_by(&cleaner, "allow b\n", &place) == HTML5_DONE);
    CHECK(feed(&cleaner, "<b>1<i>2</b>") == HTML5_DONE);
    CHECK(html5_cleaner_end(&cleaner) == HTML5_DONE);
    CHECK(html5_cleaner_restart(&cleaner) == HTML5_DONE);
    CHECK(!html5_cleaner_is_over(&cleaner));
    CHECK(feed(&cleaner, "<i>3<b>4") == HTML5_DONE);
    CHECK(html5_cleaner_end(&cleaner) == HTML5_DONE);
    CHECK(takes(&cleaner, 256, "3<b>4"));
    html5_free(&cleaner);
}

static void says_where_bytes_are_no_text(void) {
    html5_handle cleaner = {0};
    uint64_t place;
    CHECK(open_by(&cleaner, "", &place) == HTML5_DONE);
    CHECK(feed(&cleaner, "<p>ab") == HTML5_DONE);
    CHECK(feed(&cleaner, "c\xff") == HTML5_NOT_UTF8);
    CHECK(html5_cleaner_error_at(&cleaner) == 6);
    CHECK(!html5_cleaner_is_over(&cleaner));
    CHECK(feed(&cleaner, "d") == HTML5_DONE);
    CHECK(html5_cleaner_end(&cleaner) == HTML5_DONE);
    CHECK(takes(&cleaner, 256, "<p>abcd</p>"));
    html5_free(&cleaner);
}

/* A character that two feeds bring, and within a tag a byte that is not one: the byte alone is refused. */
static void refuses_no_byte_before_the_place(void) {
    html5_handle cleaner = {0};
    uint64_t place;
    CHECK(open_by(&cleaner, "allow b\n", &place) == HTML5_DONE);
    CHECK(feed(&cleaner, "ab\xc3") == HTML5_DONE);
    CHECK(html5_cleaner_end(&cleaner) == HTML5_CUT);
    CHECK(feed(&cleaner, "\xa9" "c<b\xff>d") == HTML5_NOT_UTF8);
    CHECK(html5_cleaner_error_at(&cleaner) == 7);
    CHECK(feed(&cleaner, ">e<i>") == HTML5_DONE);
    CHECK(html5_cleaner_end(&cleaner) == HTML5_DONE);
    CHECK(takes(&cleaner, 256, "ab\xc3\xa9" "c<b>e"));
    html5_free(&cleaner);
}

static void holds_no_more_than_its_limit(void) {
    html5_handle cleaner = {0};
    uint64_t place;
    CHECK(open_by(&cleaner, "allow b\n", &place) == HTML5_DONE);
    CHECK(html5_set_limit(&cleaner, 4) == HTML5_DONE);
    CHECK(feed(&cleaner, "<b>12") == HTML5_LIMIT);
    CHECK(feed(&cleaner, "<b>1") == HTML5_DONE);
    CHECK(feed(&cleaner, "<i") == HTML5_LIMIT);
    CHECK(takes(&cleaner, 256, "<b>"));
    CHECK(feed(&cleaner, "<i x") == HTML5_LIMIT);
    CHECK(feed(&cleaner, "<i ") == HTML5_DONE);
    CHECK(feed(&cleaner, "y") == HTML5_LIMIT);
    CHECK(html5_cleaner_restart(&cleaner) == HTML5_DONE);
    CHECK(feed(&cleaner, "12345") == HTML5_LIMIT);
    CHECK(feed(&cleaner, "1234") == HTML5_DONE);
    CHECK(feed(&cleaner, "5") == HTML5_LIMIT);
    CHECK(html5_set_limit(&cleaner, UINT64_MAX) == HTML5_DONE);
    CHECK(feed(&cleaner, "56789") == HTML5_DONE);
    CHECK(html5_cleaner_end(&cleaner) == HTML5_DONE);
    CHECK(takes(&cleaner, 256, "123456789"));
    html5_free(&cleaner);
}

static void says_which_rule_is_wrong(void) {
    html5_handle cleaner = {0};
    uint64_t place;
    CHECK(open_by(&cleaner, "allow p\nallow script\n", &place) == HTML5_HIDES_CONTENT && place == 2);
    CHECK(feed(&cleaner, "x") == HTML5_CLOSED);
    CHECK(open_by(&cleaner, "allow p\xff\n", &place) == HTML5_POLICY_NOT_UTF8 && place == 7);
    CHECK(open_by(&cleaner, "allow p\n", &place) == HTML5_DONE);
    html5_page kept;
    CHECK(html5_clean(&cleaner, "<p><b>1</b>", 11, &kept) == HTML5_DONE);
    CHECK(kept.len == 4 && strcmp(kept.at, "<p>1") == 0);
    free(kept.at);
    CHECK(html5_clean(&cleaner, "\xff", 1, &kept) == HTML5_NOT_UTF8 && !kept.at);
    CHECK(html5_clean(&cleaner, "\xc3", 1, &kept) == HTML5_CUT && !kept.at);
    CHECK(html5_clean(&cleaner, "2", 1, &kept) == HTML5_DONE && strcmp(kept.at, "2") == 0);
    free(kept.at);
    html5_free(&cleaner);
}

/* A page in its encoding, and another, of which the same is said. */
static void cleans_pages_in_their_encodings(void) {
    html5_handle cleaner = {0};
    uint64_t place;
    uint8_t name[16];
    html5_page kept;
    CHECK(open_by(&cleaner, "", &place) == HTML5_DONE);
    CHECK(html5_set_encoding(&cleaner, (const uint8_t *)"utf-7", 5) == HTML5_BAD_OPTION);
    CHECK(html5_set_encoding(&cleaner, NULL, 0) == HTML5_DONE);
    CHECK(html5_encoding(&cleaner, name, sizeof name) == 0);
    CHECK(feed(&cleaner, "<meta charset=shift_jis><p onclick=x>\x93") == HTML5_DONE);
    CHECK(takes(&cleaner, 256, ""));
    CHECK(html5_set_encoding(&cleaner, NULL, 0) == HTML5_BEGUN);
    CHECK(feed(&cleaner, "\xfa") == HTML5_DONE);
    CHECK(html5_cleaner_end(&cleaner) == HTML5_DONE);
    CHECK(takes(&cleaner, 256, "<p>\xe6\x97\xa5</p>"));
    CHECK(html5_encoding(&cleaner, name, sizeof name) == 9 && memcmp(name, "Shift_JIS", 9) == 0);
    CHECK(html5_clean(&cleaner, "<p>caf\xe9", 7, &kept) == HTML5_DONE && strcmp(kept.at, "<p>caf\xc3\xa9</p>") == 0);
    free(kept.at);
    CHECK(html5_clean(&cleaner, "\xff\xfe\xe9", 3, &kept) == HTML5_DONE && strcmp(kept.at, "\xef\xbf\xbd") == 0);
    free(kept.at);
    html5_free(&cleaner);
}

static void is_closed_until_it_is_opened(void) {
    html5_handle cleaner = {0};
    html5_page kept;
    CHECK(feed(&cleaner, "x") == HTML5_CLOSED);
    CHECK(html5_cleaner_end(&cleaner) == HTML5_CLOSED);
    CHECK(html5_cleaner_restart(&cleaner) == HTML5_CLOSED);
    CHECK(takes(&cleaner, 256, ""));
    CHECK(html5_cleaner_error_at(&cleaner) == 0);
    CHECK(!html5_cleaner_is_over(&cleaner));
    CHECK(html5_clean(&cleaner, "x", 1, &kept) == HTML5_CLOSED);
    html5_free(&cleaner);
    CHECK(strcmp(html5_status_text(HTML5_CLOSED), "the handle is closed") == 0);
    CHECK(strcmp(html5_status_text((html5_status)99), "no such status") == 0);
}

/* To the calls of the other kind a handle is closed. */
static void is_of_one_kind_at_a_time(void) {
    html5_handle handle = {0};
    html5_options options = {0};
    uint8_t out[8];
    uint64_t place;
    CHECK(open_by(&handle, "", &place) == HTML5_DONE && place == 0);
    CHECK(feed(&handle, "<b>x</b>") == HTML5_DONE);
    CHECK(html5_feed(&handle, "y", 1) == HTML5_CLOSED);
    CHECK(html5_insert(&handle, (const uint8_t *)"y", 1) == HTML5_CLOSED);
    CHECK(html5_end(&handle) == HTML5_CLOSED);
    CHECK(html5_take(&handle, out, sizeof out) == 0);
    CHECK(html5_cleaner_end(&handle) == HTML5_DONE);
    CHECK(takes(&handle, 256, "<b>x</b>"));
    CHECK(html5_new(&handle, out, 0, &options) == HTML5_DONE);
    CHECK(feed(&handle, "y") == HTML5_CLOSED);
    CHECK(html5_feed(&handle, "y", 1) == HTML5_DONE);
    html5_free(&handle);
}

int main(void) {
    cleans_a_page_in_pieces();
    cleans_another_page();
    says_where_bytes_are_no_text();
    refuses_no_byte_before_the_place();
    holds_no_more_than_its_limit();
    says_which_rule_is_wrong();
    cleans_pages_in_their_encodings();
    is_closed_until_it_is_opened();
    is_of_one_kind_at_a_time();
    return failed;
}
