/*
 * What crosses between this header and the library: sizes and offsets of structs, as crates/html5handle has them, and numbers. The
 * library's handle is a pointer and a `bool`; `page` stands where the library has nothing. `bindings/check.sh` runs it.
 */
#include "../firnuubal.h"

#include <stdio.h>

/* It does not compile where the condition doesn't hold. */
#define HOLDS(name, condition) typedef char name[(condition) ? 1 : -1]

/* The handle that the library has. */
typedef struct {
    void *at;
    bool is_open;
} handle_of_library;

HOLDS(handle_has_its_size, sizeof(html5_handle) == sizeof(handle_of_library) && sizeof(html5_handle) == 16);
HOLDS(handle_has_its_alignment, __alignof__(html5_handle) == __alignof__(handle_of_library));
HOLDS(at_is_first, offsetof(html5_handle, at) == 0 && offsetof(handle_of_library, at) == 0);
HOLDS(is_open_is_second, offsetof(html5_handle, is_open) == 8 && offsetof(handle_of_library, is_open) == 8);
HOLDS(page_is_in_the_padding, offsetof(html5_handle, page) == 12);

HOLDS(options_have_their_size, sizeof(html5_options) == 12);
HOLDS(state_is_first, offsetof(html5_options, state) == 0);
HOLDS(replies_are_second, offsetof(html5_options, replies) == 4);
HOLDS(exact_errors_is_third, offsetof(html5_options, exact_errors) == 8);
HOLDS(keep_bom_is_fourth, offsetof(html5_options, keep_bom) == 9);
HOLDS(foreign_is_fifth, offsetof(html5_options, foreign) == 10);
HOLDS(places_is_sixth, offsetof(html5_options, places) == 11);

HOLDS(a_status_is_32_bits, sizeof(html5_status) == sizeof(uint32_t));
HOLDS(a_bool_is_a_byte, sizeof(bool) == 1);
HOLDS(a_length_is_64_bits, sizeof(size_t) == 8);
HOLDS(the_last_status, HTML5_BEGUN == 15 && HTML5_UNKNOWN_RULE == 16 && HTML5_REL_WORD == 29);
HOLDS(the_last_rule, HTML5_ALLOW == 0 && HTML5_DEPTH == 8);

static int failed;

#define CHECK(holds) \
    do { \
        if (!(holds)) { \
            fprintf(stderr, "%s:%d: %s\n", __FILE__, __LINE__, #holds); \
            failed = 1; \
        } \
    } while (0)

/* Calls of the library itself, past the macros of the header: none touches the number of the page. */
static void leaves_the_page_alone(void) {
    enum { PAGE = 0x5a5a5a5a };
    html5_handle handle = {NULL, false, PAGE};
    html5_options options = {0};
    uint64_t place = 0;
    uint8_t out[64];
    const uint8_t *none = (const uint8_t *)"";
    CHECK((html5_new)(&handle, none, 0, &options) == HTML5_DONE && handle.page == PAGE);
    CHECK((html5_feed)(&handle, (const uint8_t *)"<p>1", 4) == HTML5_DONE && handle.page == PAGE);
    CHECK(html5_take(&handle, out, sizeof out) > 0 && handle.page == PAGE);
    CHECK((html5_restart)(&handle, none, 0, &options) == HTML5_DONE && handle.page == PAGE);
    CHECK((html5_cleaner_new)(&handle, none, 0, &place) == HTML5_DONE && handle.page == PAGE);
    CHECK((html5_cleaner_restart)(&handle) == HTML5_DONE && handle.page == PAGE);
    CHECK((html5_policy_new)(&handle) == HTML5_DONE && handle.page == PAGE);
    CHECK((html5_policy_add)(&handle, HTML5_ALLOW, (const uint8_t *)"p", 1, none, 0) == HTML5_DONE && handle.page == PAGE);
    CHECK((html5_cleaner_begin)(&handle) == HTML5_DONE && handle.page == PAGE);
    (html5_free)(&handle);
    CHECK(!handle.is_open && handle.page == PAGE);
}

int main(void) {
    leaves_the_page_alone();
    CHECK(html5_version() == FIRNUUBAL_VERSION_NUMBER);
    return failed;
}
