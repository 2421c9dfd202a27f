/*
 * Policies made rule by rule: what each rule keeps, why others are refused, and the calls to which a policy is closed.
 * `bindings/check.sh` runs it.
 */
#include "../firnuubal.h"

#include <stdio.h>

static int failed;

#define CHECK(holds) \
    do { \
        if (!(holds)) { \
            fprintf(stderr, "%s:%d: %s\n", __FILE__, __LINE__, #holds); \
            failed = 1; \
        } \
    } while (0)

static html5_status add(html5_handle *policy, uint32_t rule, const char *name) {
    return html5_policy_add(policy, rule, (const uint8_t *)name, strlen(name), NULL, 0);
}

static html5_status add_attribute(html5_handle *policy, const char *name, const char *attribute) {
    return html5_policy_add(policy, HTML5_ATTRIBUTE, (const uint8_t *)name, strlen(name), (const uint8_t *)attribute,
                            strlen(attribute));
}

/* Whether a cleaner keeps this of a page. */
static bool keeps(html5_handle *cleaner, const char *page, const char *due) {
    html5_page kept;
    if (html5_clean(cleaner, page, strlen(page), &kept)) return false;
    bool is_due = kept.len == strlen(due) && strcmp(kept.at, due) == 0;
    if (!is_due) fprintf(stderr, "kept %s\n", kept.at);
    free(kept.at);
    return is_due;
}

static void keeps_text_alone_at_first(void) {
    html5_handle handle = {0};
    CHECK(html5_policy_new(&handle) == HTML5_DONE);
    CHECK(html5_cleaner_begin(&handle) == HTML5_DONE);
    CHECK(keeps(&handle, "<p>1 &lt; <b>2</b><script>3</script>", "1 &#60; 2"));
    html5_free(&handle);
}

static void keeps_what_rules_say(void) {
    html5_handle handle = {0};
    CHECK(html5_policy_new(&handle) == HTML5_DONE);
    CHECK(add(&handle, HTML5_ALLOW, "p") == HTML5_DONE && add(&handle, HTML5_ALLOW, "a") == HTML5_DONE);
    CHECK(add_attribute(&handle, "a", "href") == HTML5_DONE && add(&handle, HTML5_EVERYWHERE, "lang") == HTML5_DONE);
    CHECK(add(&handle, HTML5_SCHEME, "https") == HTML5_DONE && add(&handle, HTML5_HIDE, "q") == HTML5_DONE);
    CHECK(add(&handle, HTML5_BALANCE, "") == HTML5_DONE);
    CHECK(html5_cleaner_begin(&handle) == HTML5_DONE);
    CHECK(keeps(&handle, "<p lang=x class=y><a href=https:x>1</p><q>2</q><b>3", "<p lang=\"x\"><a href=\"https:x\">1</a></p>3"));
    CHECK(keeps(&handle, "<a href=http:x>1", "<a>1</a>"));
    html5_free(&handle);
}

/* An attribute is kept where its element is. The order of rules says nothing. */
static void keeps_attributes_of_what_is_kept(void) {
    html5_handle handle = {0};
    CHECK(html5_policy_new(&handle) == HTML5_DONE);
    CHECK(add_attribute(&handle, "b", "class") == HTML5_DONE && add(&handle, HTML5_ALLOW, "b") == HTML5_DONE);
    CHECK(html5_cleaner_begin(&handle) == HTML5_DONE);
    CHECK(keeps(&handle, "<b class=x id=y>1", "<b class=\"x\">1"));
    html5_free(&handle);
}

static void adds_words_of_rel(void) {
    html5_handle handle = {0};
    CHECK(html5_policy_new(&handle) == HTML5_DONE);
    CHECK(add(&handle, HTML5_ALLOW, "a") == HTML5_DONE && add_attribute(&handle, "a", "href") == HTML5_DONE);
    CHECK(add(&handle, HTML5_REL, "nofollow") == HTML5_DONE && add(&handle, HTML5_REL, "noopener") == HTML5_DONE);
    CHECK(html5_cleaner_begin(&handle) == HTML5_DONE);
    CHECK(keeps(&handle, "<a href=x rel=opener>1<a>2", "<a href=\"x\" rel=\"nofollow noopener\">1<a>2"));
    html5_free(&handle);
}

static void makes_a_tree_of_a_depth(void) {
    html5_handle handle = {0};
    CHECK(html5_policy_new(&handle) == HTML5_DONE);
    CHECK(add(&handle, HTML5_ALLOW, "p") == HTML5_DONE && add(&handle, HTML5_ALLOW, "i") == HTML5_DONE);
    CHECK(add(&handle, HTML5_TREE, "") == HTML5_DONE && add(&handle, HTML5_DEPTH, "1") == HTML5_DONE);
    CHECK(html5_cleaner_begin(&handle) == HTML5_DONE);
    CHECK(keeps(&handle, "<p>1<p>2<i>x</i>", "<p>1</p><p>2x</p>"));
    html5_free(&handle);
}

/* A rule, and what is answered. */
typedef struct {
    uint32_t rule;
    const char *name, *attribute;
    html5_status status;
} row;

static const row refused[] = {
    {HTML5_ALLOW, "p", "x", HTML5_WORD_TOO_MANY},
    {HTML5_TREE, "x", "", HTML5_WORD_TOO_MANY},
    {HTML5_BALANCE, "x", "", HTML5_WORD_TOO_MANY},
    {HTML5_ALLOW, "P", "", HTML5_ELEMENT_NAME},
    {HTML5_ALLOW, "", "", HTML5_ELEMENT_NAME},
    {HTML5_ALLOW, "a b", "", HTML5_ELEMENT_NAME},
    {HTML5_ALLOW, "a>", "", HTML5_ELEMENT_NAME},
    {HTML5_HIDE, "Q", "", HTML5_ELEMENT_NAME},
    {HTML5_ATTRIBUTE, "p", "A", HTML5_ATTRIBUTE_NAME},
    {HTML5_ATTRIBUTE, "p", "", HTML5_ATTRIBUTE_NAME},
    {HTML5_EVERYWHERE, "a=b", "", HTML5_ATTRIBUTE_NAME},
    {HTML5_ALLOW, "script", "", HTML5_HIDES_CONTENT},
    {HTML5_ALLOW, "svg", "", HTML5_HIDES_CONTENT},
    {HTML5_ALLOW, "meta", "", HTML5_ACTS_ON_PAGE},
    {HTML5_ALLOW, "base", "", HTML5_ACTS_ON_PAGE},
    {HTML5_HIDE, "p", "", HTML5_ALLOWED_AND_HIDDEN},
    {HTML5_ALLOW, "q", "", HTML5_ALLOWED_AND_HIDDEN},
    {HTML5_ATTRIBUTE, "p", "onclick", HTML5_NEVER_KEPT},
    {HTML5_EVERYWHERE, "style", "", HTML5_NEVER_KEPT},
    {HTML5_SCHEME, "Http", "", HTML5_SCHEME_NAME},
    {HTML5_SCHEME, "", "", HTML5_SCHEME_NAME},
    {HTML5_SCHEME, "http:", "", HTML5_SCHEME_NAME},
    {HTML5_SCHEME, "javascript", "", HTML5_RUNS_ADDRESS},
    {HTML5_SCHEME, "data", "", HTML5_RUNS_ADDRESS},
    {HTML5_TREE, "", "", HTML5_NO_PLACE_IN_TREE},
    {HTML5_DEPTH, "", "", HTML5_BAD_DEPTH},
    {HTML5_DEPTH, "0", "", HTML5_BAD_DEPTH},
    {HTML5_DEPTH, "4097", "", HTML5_BAD_DEPTH},
    {HTML5_DEPTH, "x", "", HTML5_BAD_DEPTH},
    {HTML5_REL, "", "", HTML5_REL_WORD},
    {HTML5_REL, "a b", "", HTML5_REL_WORD},
    {HTML5_REL, "a\"", "", HTML5_REL_WORD},
    {9, "p", "", HTML5_BAD_OPTION},
    {UINT32_MAX, "p", "", HTML5_BAD_OPTION},
    {HTML5_ALLOW, "\xff", "", HTML5_NOT_UTF8},
    {HTML5_ATTRIBUTE, "p", "\xff", HTML5_NOT_UTF8},
};

static html5_status add_row(html5_handle *policy, const row *it) {
    return html5_policy_add(policy, it->rule, (const uint8_t *)it->name, strlen(it->name), (const uint8_t *)it->attribute,
                            strlen(it->attribute));
}

/* Each is refused for what is wrong with it, and the policy stays what it was. */
static void says_why_a_rule_is_refused(void) {
    html5_handle handle = {0};
    CHECK(html5_policy_new(&handle) == HTML5_DONE);
    CHECK(add(&handle, HTML5_ALLOW, "p") == HTML5_DONE && add(&handle, HTML5_ALLOW, "x-y") == HTML5_DONE);
    CHECK(add(&handle, HTML5_HIDE, "q") == HTML5_DONE);
    for (size_t at = 0; at < sizeof refused / sizeof *refused; at++) {
        html5_status status = add_row(&handle, refused + at);
        if (status != refused[at].status)
            fprintf(stderr, "rule %u of \"%s\" \"%s\": %s\n", (unsigned)refused[at].rule, refused[at].name,
                    refused[at].attribute, html5_status_text(status));
        CHECK(status == refused[at].status);
        CHECK(html5_is_rule_fault(status) == (status >= 16));
    }
    CHECK(html5_cleaner_begin(&handle) == HTML5_DONE);
    CHECK(keeps(&handle, "<p onclick=x style=y class=z>1<q>2</q><x-y><script>3</script><meta>", "<p>1<x-y>"));
    html5_free(&handle);
}

/* Nothing in a name is read as a rule or a separator: it is refused whole, also past a zero byte. */
static void takes_names_as_they_are(void) {
    static const struct {
        const char *name;
        size_t len;
    } names[] = {
        {"b\nallow img src", 15}, {"b\0", 2}, {"b\0i", 3}, {"\0", 1}, {"b img", 5}, {"b\tallow i", 9}, {"b\r\ni", 4}, {" b", 2}, {"b ", 2},
    };
    const uint8_t *b = (const uint8_t *)"b";
    html5_handle handle = {0};
    CHECK(html5_policy_new(&handle) == HTML5_DONE);
    CHECK(add(&handle, HTML5_ALLOW, "p") == HTML5_DONE);
    for (size_t at = 0; at < sizeof names / sizeof *names; at++) {
        const uint8_t *name = (const uint8_t *)names[at].name;
        size_t len = names[at].len;
        CHECK(html5_policy_add(&handle, HTML5_ALLOW, name, len, NULL, 0) == HTML5_ELEMENT_NAME);
        CHECK(html5_policy_add(&handle, HTML5_HIDE, name, len, NULL, 0) == HTML5_ELEMENT_NAME);
        CHECK(html5_policy_add(&handle, HTML5_EVERYWHERE, name, len, NULL, 0) == HTML5_ATTRIBUTE_NAME);
        CHECK(html5_policy_add(&handle, HTML5_ATTRIBUTE, b, 1, name, len) == HTML5_ATTRIBUTE_NAME);
        CHECK(html5_policy_add(&handle, HTML5_SCHEME, name, len, NULL, 0) == HTML5_SCHEME_NAME);
        CHECK(html5_policy_add(&handle, HTML5_REL, name, len, NULL, 0) == HTML5_REL_WORD);
        CHECK(html5_policy_add(&handle, HTML5_DEPTH, name, len, NULL, 0) == HTML5_BAD_DEPTH);
        CHECK(html5_policy_add(&handle, HTML5_TREE, name, len, NULL, 0) == HTML5_WORD_TOO_MANY);
    }
    CHECK(html5_cleaner_begin(&handle) == HTML5_DONE);
    CHECK(keeps(&handle, "<p id=x><b><i><img src=x>1", "<p>1"));
    html5_free(&handle);
}

/* To the calls of a tokenizer and of a cleaner a policy is closed, and they change nothing. */
static void is_closed_to_other_calls(void) {
    html5_handle handle = {0};
    html5_options options = {0};
    uint8_t out[16];
    const uint8_t *x = (const uint8_t *)"x";
    CHECK(html5_policy_new(&handle) == HTML5_DONE && add(&handle, HTML5_ALLOW, "p") == HTML5_DONE);
    CHECK(html5_restart(&handle, x, 0, &options) == HTML5_CLOSED);
    CHECK(html5_feed(&handle, x, 1) == HTML5_CLOSED && html5_insert(&handle, x, 1) == HTML5_CLOSED);
    CHECK(html5_reply(&handle, HTML5_DATA) == HTML5_CLOSED && html5_set_foreign(&handle, true) == HTML5_CLOSED);
    CHECK(html5_set_limit(&handle, 1) == HTML5_CLOSED && html5_set_encoding(&handle, NULL, 0) == HTML5_CLOSED);
    CHECK(html5_encoding(&handle, out, sizeof out) == 0 && html5_take(&handle, out, sizeof out) == 0);
    CHECK(html5_end(&handle) == HTML5_CLOSED && html5_error_at(&handle) == 0 && !html5_is_over(&handle));
    CHECK(html5_cleaner_restart(&handle) == HTML5_CLOSED && html5_cleaner_feed(&handle, x, 1) == HTML5_CLOSED);
    CHECK(html5_cleaner_end(&handle) == HTML5_CLOSED && html5_cleaner_take(&handle, out, sizeof out) == 0);
    CHECK(html5_cleaner_error_at(&handle) == 0 && !html5_cleaner_is_over(&handle));
    CHECK(add(&handle, HTML5_ALLOW, "b") == HTML5_DONE && html5_cleaner_begin(&handle) == HTML5_DONE);
    CHECK(keeps(&handle, "<p><b><i>1", "<p><b>1"));
    html5_free(&handle);
}

/* What is no policy takes no rule: what is closed, a tokenizer and a cleaner, which go on as before. */
static void takes_rules_of_a_policy_alone(void) {
    html5_handle handle = {0};
    html5_options options = {0};
    uint64_t place;
    CHECK(add(&handle, HTML5_ALLOW, "p") == HTML5_CLOSED && html5_cleaner_begin(&handle) == HTML5_CLOSED);
    CHECK(html5_new(&handle, (const uint8_t *)"", 0, &options) == HTML5_DONE);
    CHECK(html5_feed(&handle, "<p>", 3) == HTML5_DONE);
    CHECK(add(&handle, HTML5_ALLOW, "p") == HTML5_CLOSED);
    CHECK(html5_cleaner_begin(&handle) == HTML5_CLOSED && html5_end(&handle) == HTML5_DONE);
    CHECK(html5_policy_new(&handle) == HTML5_DONE && add(&handle, HTML5_ALLOW, "p") == HTML5_DONE);
    CHECK(html5_policy_new(&handle) == HTML5_DONE && html5_cleaner_begin(&handle) == HTML5_DONE);
    CHECK(add(&handle, HTML5_ALLOW, "p") == HTML5_CLOSED && html5_cleaner_begin(&handle) == HTML5_CLOSED);
    CHECK(keeps(&handle, "<p>1", "1"));
    CHECK(html5_cleaner_new(&handle, NULL, 0, &place) == HTML5_DONE);
    CHECK(add(&handle, HTML5_ALLOW, "p") == HTML5_CLOSED && html5_cleaner_begin(&handle) == HTML5_CLOSED);
    CHECK(keeps(&handle, "<p>1", "<p>1</p>"));
    html5_free(&handle);
    CHECK(html5_policy_new(&handle) == HTML5_DONE);
    html5_free(&handle);
    CHECK(add(&handle, HTML5_ALLOW, "p") == HTML5_CLOSED);
}

static void has_what_a_cleaner_has(void) {
    html5_handle handle = {0};
    CHECK(html5_policy_new(&handle) == HTML5_DONE && add(&handle, HTML5_ALLOW, "b") == HTML5_DONE);
    CHECK(html5_cleaner_begin(&handle) == HTML5_DONE);
    CHECK(html5_set_encoding(&handle, "windows-1252", 12) == HTML5_DONE);
    CHECK(html5_set_limit(&handle, 8) == HTML5_DONE);
    CHECK(html5_cleaner_feed(&handle, "<b>\xe9", 4) == HTML5_DONE && html5_cleaner_feed(&handle, "12345", 5) == HTML5_LIMIT);
    CHECK(keeps(&handle, "<b>\xe9", "<b>\xc3\xa9"));
    html5_free(&handle);
}

/* A line of a text: its fault, and that of the statuses which only a text has. */
static void says_why_a_line_is_refused(void) {
    static const struct {
        const char *text;
        html5_status status;
        uint64_t line;
    } texts[] = {
        {"allow p\nallows b\n", HTML5_UNKNOWN_RULE, 2},
        {"hide\n", HTML5_NO_NAME, 1},
        {"\n# x\ntree x\n", HTML5_WORD_TOO_MANY, 3},
        {"allow A\n", HTML5_ELEMENT_NAME, 1},
        {"allow a On\n", HTML5_ATTRIBUTE_NAME, 1},
        {"allow style\n", HTML5_HIDES_CONTENT, 1},
        {"allow body\n", HTML5_ACTS_ON_PAGE, 1},
        {"allow p\nhide p\n", HTML5_ALLOWED_AND_HIDDEN, 2},
        {"everywhere onload\n", HTML5_NEVER_KEPT, 1},
        {"schemes 1\n", HTML5_SCHEME_NAME, 1},
        {"schemes blob\n", HTML5_RUNS_ADDRESS, 1},
        {"tree\nallow x-y\n", HTML5_NO_PLACE_IN_TREE, 2},
        {"depth 5000\n", HTML5_BAD_DEPTH, 1},
        {"rel a_b\n", HTML5_REL_WORD, 1},
    };
    html5_handle handle = {0};
    for (size_t at = 0; at < sizeof texts / sizeof *texts; at++) {
        uint64_t place = 0;
        CHECK(html5_cleaner_new(&handle, (const uint8_t *)texts[at].text, strlen(texts[at].text), &place) == texts[at].status);
        CHECK(place == texts[at].line && !handle.is_open);
    }
    html5_free(&handle);
}

/* Each status has words of its own, and those of rules alone are faults of rules. */
static void says_statuses_in_words(void) {
    for (int one = 0; one <= HTML5_REL_WORD; one++) {
        CHECK(html5_is_rule_fault((html5_status)one) == (one >= 16));
        for (int other = 0; other < one; other++)
            CHECK(strcmp(html5_status_text((html5_status)one), html5_status_text((html5_status)other)) != 0);
    }
    CHECK(strcmp(html5_status_text((html5_status)30), "no such status") == 0 && !html5_is_rule_fault((html5_status)30));
}

int main(void) {
    keeps_text_alone_at_first();
    keeps_what_rules_say();
    keeps_attributes_of_what_is_kept();
    adds_words_of_rel();
    makes_a_tree_of_a_depth();
    says_why_a_rule_is_refused();
    takes_names_as_they_are();
    is_closed_to_other_calls();
    takes_rules_of_a_policy_alone();
    has_what_a_cleaner_has();
    says_why_a_line_is_refused();
    says_statuses_in_words();
    return failed;
}
