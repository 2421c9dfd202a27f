/*
 * The tokenizer and the cleaner from C (C99), and a reader of the tokenizer's records.
 *
 * A handle is for one call at a time, and there are no locks. Two threads in one handle are undefined behaviour, and so is a
 * call from a signal handler during another call. Different handles are independent.
 *
 * The functions of the first three parts are in the library: they are proved, and their contracts are in crates/html5c/src.
 * What is `static inline` is in this header alone, and is not proved.
 */
#ifndef FIRNUUBAL_H
#define FIRNUUBAL_H

/* The version of the library, of this header and of the readers. */
#define FIRNUUBAL_VERSION "0.20.0"

/* The same as a number, its three numbers a byte each. `html5_version` says it of the library that is linked. */
#define FIRNUUBAL_VERSION_NUMBER 0x001400

#include <stdbool.h>
#include <stddef.h>
#include <stdint.h>
#include <stdlib.h>
#include <string.h>

#ifdef __cplusplus
extern "C" {
#endif

/* The version of the library, as FIRNUUBAL_VERSION_NUMBER has that of this header. */
uint32_t html5_version(void);

/* ---- the tokenizer */

/*
 * A tokenizer, a policy, or a page that is cleaned. One of zeros is closed: `html5_handle h = {0};`. Never copy an open one.
 *
 * `page` is this header's: the library never touches it. Each page has a number, by which a reader sees that the records that
 * it holds are of another page. The macros of this header set it. A call through a pointer, or one found by `dlsym`, does not.
 */
typedef struct {
    void *at;
    bool is_open;
    uint32_t page;
} html5_handle;

/* The number of the last page that was begun: one for all files of a program. */
#ifdef __GNUC__
__attribute__((weak, visibility("hidden"))) uint32_t html5_pages;
#else
static uint32_t html5_pages;
#endif

/* Gives a handle the number of another page. */
static inline html5_handle *html5_next_page(html5_handle *handle) {
#ifdef __GNUC__
    handle->page = __atomic_add_fetch(&html5_pages, 1, __ATOMIC_RELAXED);
#else
    handle->page = ++html5_pages;
#endif
    return handle;
}

/* What a call answers. */
enum html5_status {
    HTML5_DONE = 0,       /* all of it was read */
    HTML5_SCRIPT = 1,     /* a pause: a script ends here; the rest waits */
    HTML5_ENCODING = 2,   /* a pause: a meta tag names an encoding; the rest waits */
    HTML5_NO_MEMORY = 3,  /* a request for memory was refused */
    HTML5_NOT_UTF8 = 4,   /* bytes are not UTF-8, whatever follows them; all before them was read */
    HTML5_CUT = 5,        /* the input ends inside a character */
    HTML5_WAITING = 6,    /* text after a pause was not fed yet: call feed first, even with no bytes */
    HTML5_OVER = 7,       /* the page ended, or an earlier call was refused for good */
    HTML5_CLOSED = 8,     /* the handle is closed */
    HTML5_BAD_OPTION = 9, /* an option has no such value */
    HTML5_BAD_POLICY = 10,      /* no longer answered: the answer is the cause, one of those from HTML5_UNKNOWN_RULE on */
    HTML5_POLICY_NOT_UTF8 = 11, /* the policy is not UTF-8 */
    HTML5_TAG = 12,             /* a pause: a tag to which the caller replies; the rest waits */
    HTML5_ITEM_OPEN = 13,       /* a tag or other item is incomplete, so no state can be set */
    HTML5_LIMIT = 14,           /* more bytes would be held than the limit: the piece was not taken */
    HTML5_BEGUN = 15,           /* bytes were fed already, so it can't be set in which encoding they are */
    /* Why a rule of a policy is refused. */
    HTML5_UNKNOWN_RULE = 16,       /* of a text: the first word of the line is not a rule */
    HTML5_NO_NAME = 17,            /* of a text: missing name after the rule */
    HTML5_WORD_TOO_MANY = 18,      /* a name is given that the rule does not take */
    HTML5_ELEMENT_NAME = 19,       /* invalid tag name: it has capital letters or spaces, or is empty */
    HTML5_ATTRIBUTE_NAME = 20,     /* invalid attribute name */
    HTML5_HIDES_CONTENT = 21,      /* the content of this element is always dropped, as in script or style */
    HTML5_ACTS_ON_PAGE = 22,       /* this element acts on the whole page, as meta or base does */
    HTML5_ALLOWED_AND_HIDDEN = 23, /* an element is allowed and hidden */
    HTML5_NEVER_KEPT = 24,         /* this attribute runs scripts, or isn't a single URL, as onclick or srcset */
    HTML5_SCHEME_NAME = 25,        /* invalid scheme: it must be lower case */
    HTML5_RUNS_ADDRESS = 26,       /* addresses of this scheme run their content, as javascript */
    HTML5_NO_PLACE_IN_TREE = 27,   /* with HTML5_TREE: an element that has no place in the tree */
    HTML5_BAD_DEPTH = 28,          /* the depth must be a number from 1 to 4096 */
    HTML5_REL_WORD = 29            /* a word of rel has a character that is not a letter, digit or hyphen */
};

typedef enum html5_status html5_status;

/* Whether a status says why a rule of a policy is refused. */
static inline bool html5_is_rule_fault(html5_status status) {
    return status >= HTML5_UNKNOWN_RULE && status <= HTML5_REL_WORD;
}

/* What a status says, in words. */
static inline const char *html5_status_text(html5_status status) {
    static const char *const texts[] = {
        "done", "paused after a script", "paused after a meta tag that names an encoding", "out of memory",
        "the page is not UTF-8", "the page ends inside a character", "text after a pause was not fed yet",
        "the page has ended, or an earlier call failed", "the handle is closed", "an option has no such value",
        "a line of the policy is not a valid rule", "the policy is not UTF-8",
        "paused after a tag, for the caller's reply", "a tag or other item is incomplete",
        "more bytes would be held than the limit", "the page has already begun", "unknown rule",
        "missing name after the rule", "too many words after the rule", "invalid tag name", "invalid attribute name",
        "the element can't be allowed: its content is always dropped",
        "the element can't be allowed: it affects the page around it", "the element is both allowed and hidden",
        "the attribute can't be allowed: it runs scripts or isn't a single URL",
        "invalid scheme: it must be lower case", "the scheme can't be allowed: its URLs run their content",
        "the element can't be allowed with the rule tree: it has no place in the tree",
        "the depth must be a number from 1 to 4096", "words of rel can only have letters, digits and hyphens"};
    return (size_t)status < sizeof texts / sizeof *texts ? texts[status] : "no such status";
}

/* The state in which the reading starts, or goes on after `html5_reply`. */
enum html5_state {
    HTML5_DATA = 0,
    HTML5_PLAINTEXT = 1,
    HTML5_RCDATA = 2,
    HTML5_RAWTEXT = 3,
    HTML5_SCRIPT_DATA = 4,
    HTML5_CDATA_SECTION = 5
};

/* What the tokenizer does after tags. */
enum html5_replies {
    HTML5_STANDARD_REPLIES = 0, /* scripts, styles, titles and their like are no markup */
    HTML5_NO_REPLIES = 1,       /* all is markup */
    HTML5_PAUSING_REPLIES = 2,  /* as the standard's, and it pauses after </script> and <meta charset=..> */
    HTML5_CALLER_REPLIES = 3    /* it pauses after each tag, and reads markup unless `html5_reply` says otherwise */
};

/* How a page is read. Zeros are the usual way. */
typedef struct {
    uint32_t state;    /* one of enum html5_state */
    uint32_t replies;  /* one of enum html5_replies */
    bool exact_errors; /* tell every bad character as a parse error; it is slower */
    bool keep_bom;     /* keep a byte order mark at the start */
    bool foreign;      /* the content is foreign, as `html5_set_foreign` says it later: <![CDATA[ opens a section */
    bool places;       /* tell where each token stands; only with the standard's replies, and not in foreign content */
} html5_options;

/*
 * With `places` the text before a token comes with it, in one piece, and a token that is read has its places
 * (`text_begin`, `begin`, `end` of html5_token). The page is UTF-8, and nothing pauses: `html5_insert`, `html5_reply`,
 * `html5_set_foreign` and `html5_set_encoding` answer HTML5_CLOSED. It is slower, and holds the text since the last token,
 * which counts against the limit. Options that `places` doesn't go with are answered HTML5_BAD_OPTION.
 */

/*
 * No pointer may be null. But where a length is 0, the bytes of a feed may be: `html5_feed(&handle, NULL, 0)` goes on after
 * a pause.
 */
static inline const uint8_t *html5_bytes_or_none(const void *bytes) {
    return bytes ? (const uint8_t *)bytes : (const uint8_t *)"";
}

/*
 * Opens a handle at the start of a page. What it held before is freed. `last_start_tag` is the name of the tag whose end
 * tag ends raw text, where the reading starts in some; its length is 0 otherwise.
 */
html5_status html5_new(html5_handle *handle, const uint8_t *last_start_tag, size_t len, const html5_options *options);

static inline html5_status html5_new_page(html5_handle *handle, const uint8_t *last_start_tag, size_t len,
                                          const html5_options *options) {
    return html5_new(html5_next_page(handle), last_start_tag, len, options);
}
#define html5_new(...) html5_new_page(__VA_ARGS__)

/*
 * Begins another page in an open handle, as html5_new does, but with the table of the standard's names that the handle has: to
 * make that anew takes as long as reading some 70,000 bytes. The limit stays, and so does the encoding that was said. What was
 * not taken is gone. After any status but HTML5_DONE nothing changes. A page that is read with `places` goes on with them, and
 * another goes on without: options that say otherwise are HTML5_BAD_OPTION.
 */
html5_status html5_restart(html5_handle *handle, const uint8_t *last_start_tag, size_t len, const html5_options *options);

static inline html5_status html5_restart_page(html5_handle *handle, const uint8_t *last_start_tag, size_t len,
                                              const html5_options *options) {
    html5_status status = html5_restart(handle, last_start_tag, len, options);
    if (status == HTML5_DONE) html5_next_page(handle);
    return status;
}
#define html5_restart(...) html5_restart_page(__VA_ARGS__)

/*
 * Reads the next bytes, in pieces of any size. After a pause it goes on, with the waiting text and these bytes.
 *
 * Where bytes of them are not UTF-8, whatever follows, those before are read, and then it answers HTML5_NOT_UTF8. They are
 * not taken, and none after them: the next feed goes on with what is to stand in their place. A pause before them comes
 * first. Then no feed takes any bytes, until all that waits was read and one answered HTML5_NOT_UTF8.
 */
html5_status html5_feed(html5_handle *handle, const uint8_t *bytes, size_t len);
#define html5_feed(handle, bytes, len) html5_feed(handle, html5_bytes_or_none(bytes), len)

/*
 * Puts a text in front of the waiting text, as document.write does. It is UTF-8 by itself, else nothing changes. When
 * nothing more is read it answers HTML5_OVER, whatever the bytes.
 */
html5_status html5_insert(html5_handle *handle, const uint8_t *text, size_t len);

/*
 * Reads the rest in a state (one of enum html5_state), as a tree builder asks after a start tag. Raw text is read up to
 * the end tag of the last start tag. It changes nothing, and answers HTML5_OVER, when nothing more is read, whatever the
 * state; else HTML5_BAD_OPTION, for no such state; else HTML5_ITEM_OPEN, within a tag or another item.
 */
html5_status html5_reply(html5_handle *handle, uint32_t state);

/* Says whether the current node is outside the HTML namespace, so that <![CDATA[ opens a section from here on. */
html5_status html5_set_foreign(html5_handle *handle, bool foreign);

/*
 * Sets how many bytes the handle may hold, of a tokenizer or of a cleaner: the bytes fed since all was read and no tag or
 * other item was open, and those that wait to be taken; of a cleaner also the text that no tag has ended yet. Before it is set
 * there is no limit. A piece that goes past it is not taken: a feed or an insert answers HTML5_LIMIT, just then, and
 * nothing changes. What else is held is some multiple of that and of what the last piece made. By a policy with the rule
 * `tree` or `balance` a cleaner also holds the names of the elements that are open, which are not counted.
 */
html5_status html5_set_limit(html5_handle *handle, uint64_t limit);

/*
 * Reads the page in the encoding that it is in, of a tokenizer or of a cleaner. It is called before the first bytes are fed,
 * else it answers HTML5_BEGUN. The label, one of the Encoding Standard, names the encoding that is said of the page, as by a
 * header of the transport; if no encoding has it the answer is HTML5_BAD_OPTION. After any status but HTML5_DONE nothing
 * changes. One of no bytes says nothing. The encoding is determined as by a browser: by a byte order mark; else by what is said;
 * else by a `<meta charset=..>` or an XML declaration in the first bytes; else it is UTF-8 if these are UTF-8, and else
 * windows-1252. So a page whose first 65,536 bytes are plain ASCII is read as UTF-8.
 *
 * Then no bytes are refused: those that are invalid in the encoding are read as U+FFFD. The first bytes are held
 * until they tell the encoding: fewer than 1,024, or up to 65,536 of plain ASCII that tells nothing. They count for the limit;
 * a byte of the page may be up to three of its text, by which the held bytes can go past the limit. Texts of `html5_insert` stay
 * UTF-8. `html5_restart` and `html5_cleaner_restart` keep what was said.
 */
html5_status html5_set_encoding(html5_handle *handle, const uint8_t *label, size_t len);
#define html5_set_encoding(handle, label, len) html5_set_encoding(handle, html5_bytes_or_none(label), len)

/*
 * The name of the encoding in which the page is read since `html5_set_encoding`: "UTF-8", "Shift_JIS" and so on, with no zero
 * byte after it. It copies as much of it as fits, 14 bytes at most, and answers how many; 0 before the first bytes of the
 * page, or its end, told which it is.
 */
size_t html5_encoding(html5_handle *handle, uint8_t *out, size_t len);

/*
 * Tells the end of the page. A fault that is still to be said, after a pause, is answered here too: HTML5_NOT_UTF8.
 *
 * Since `html5_set_encoding` the rest of the page's text is read first, of bytes that are held. That may pause: then the answer
 * is that of a feed, the page has not ended, and `html5_end` is called again, until it answers HTML5_DONE.
 */
html5_status html5_end(html5_handle *handle);

/* Moves the next bytes of the records to `out`, as many as fit, and answers how many. */
size_t html5_take(html5_handle *handle, uint8_t *out, size_t len);

/*
 * After HTML5_NOT_UTF8: the place of the first byte that is not UTF-8, counted from the first that was fed. All bytes
 * before it were taken, and none from it on.
 */
uint64_t html5_error_at(html5_handle *handle);

/*
 * Whether nothing more is read: the page ended, or a call was refused for good. Then feeds, inserts and ends answer
 * HTML5_OVER; what was recorded can still be taken. After HTML5_NO_MEMORY it says whether the page can go on. Of a closed
 * handle it is false.
 */
bool html5_is_over(html5_handle *handle);

/* Gives the memory back. The handle is closed then, and may be opened again. */
void html5_free(html5_handle *handle);
#define html5_free(handle) html5_free(html5_next_page(handle))

/*
 * The code that the standard has for a parse error, "eof-in-tag" and so on, by its message: that of a token
 * HTML5_PARSE_ERROR. It copies as much of the code as fits, HTML5_ERROR_CODE_ROOM bytes at most, with no zero byte after
 * it, and answers how many; 0 where the message has no code. With `exact_errors` a message says no state, and then one of a
 * character or of the end has none. It needs no handle.
 */
size_t html5_error_code(const uint8_t *message, size_t message_len, uint8_t *out, size_t len);
#define html5_error_code(message, message_len, out, len) html5_error_code(html5_bytes_or_none(message), message_len, out, len)

/* There is room for each code in so many bytes. */
#define HTML5_ERROR_CODE_ROOM 64

/* ---- policies, rule by rule */

/* What a rule says, and what its name is. Only HTML5_ATTRIBUTE takes an attribute. */
enum html5_rule {
    HTML5_ALLOW = 0,      /* an element that is kept */
    HTML5_ATTRIBUTE = 1,  /* an element; the attribute is kept in it, where the element is kept */
    HTML5_EVERYWHERE = 2, /* an attribute that is kept in each element */
    HTML5_SCHEME = 3,     /* a scheme of addresses that are kept, in small letters, without its colon */
    HTML5_HIDE = 4,       /* an element that is dropped with its content */
    HTML5_REL = 5,        /* a word. Each `a` that is kept with an `href` gets a `rel` of all such words, and no other */
    HTML5_BALANCE = 6,    /* no name: each end tag closes what was opened inside its element */
    HTML5_TREE = 7,       /* no name: the page is made to fit, so that a browser builds it as its tags are nested */
    HTML5_DEPTH = 8       /* how many elements may be open, in decimal digits: 1 to 4096. The default is 256 */
};

/*
 * Opens a handle as a policy that keeps text alone. What it held before is freed. It answers HTML5_DONE, or HTML5_NO_MEMORY:
 * then it is closed. To each call but `html5_policy_add`, `html5_cleaner_begin` and those that open or free a handle, a policy
 * is closed.
 */
html5_status html5_policy_new(html5_handle *handle);
#define html5_policy_new(handle) html5_policy_new(html5_next_page(handle))

/*
 * Adds a rule (one of enum html5_rule) to a policy. A name is one name, as it stands: nothing in it separates names or rules. It
 * is UTF-8, else the answer is HTML5_NOT_UTF8. HTML5_BAD_OPTION: no rule has this number. From HTML5_UNKNOWN_RULE on it is
 * why the rule is refused (`html5_is_rule_fault`). After any status but HTML5_DONE the policy is as it was.
 */
html5_status html5_policy_add(html5_handle *handle, uint32_t rule, const uint8_t *name, size_t name_len,
                              const uint8_t *attribute, size_t attribute_len);
#define html5_policy_add(handle, rule, name, name_len, attribute, attribute_len) \
    html5_policy_add(handle, rule, html5_bytes_or_none(name), name_len, html5_bytes_or_none(attribute), attribute_len)

/*
 * Makes of a policy a cleaner by it, at the start of a page. It answers HTML5_DONE; HTML5_NO_MEMORY: it is still the policy; or
 * HTML5_CLOSED: the handle is no policy.
 */
html5_status html5_cleaner_begin(html5_handle *handle);

static inline html5_status html5_cleaner_begin_page(html5_handle *handle) {
    html5_status status = html5_cleaner_begin(handle);
    if (status == HTML5_DONE) html5_next_page(handle);
    return status;
}
#define html5_cleaner_begin(handle) html5_cleaner_begin_page(handle)

/* ---- the cleaner */

/*
 * Opens a handle at the start of a page that is cleaned. What it held before is freed. The policy is a text, a rule a line
 * (crates/html5policy/README.md); one of no bytes is the standard policy, which has the rule `tree`. Where a rule is refused
 * the answer is why (`html5_is_rule_fault`), and `place` is the number of its line, from 1. After HTML5_POLICY_NOT_UTF8 `place`
 * is the place of the first such byte, and after any other status it is 0. To the calls of a tokenizer the handle is closed,
 * except html5_free.
 */
html5_status html5_cleaner_new(html5_handle *handle, const uint8_t *policy, size_t len, uint64_t *place);
#define html5_cleaner_new(handle, policy, len, place) \
    html5_cleaner_new(html5_next_page(handle), html5_bytes_or_none(policy), len, place)

/* Begins another page, by the same policy, limit and encoding that was said. What was not taken is gone. */
html5_status html5_cleaner_restart(html5_handle *handle);

static inline html5_status html5_cleaner_restart_page(html5_handle *handle) {
    html5_status status = html5_cleaner_restart(handle);
    if (status == HTML5_DONE) html5_next_page(handle);
    return status;
}
#define html5_cleaner_restart(handle) html5_cleaner_restart_page(handle)

/*
 * Reads the next bytes of the page, in pieces of any size. Where bytes of them are not UTF-8, those before are read, and then
 * it answers HTML5_NOT_UTF8. `html5_set_limit` sets how many bytes may be held.
 */
html5_status html5_cleaner_feed(html5_handle *handle, const uint8_t *bytes, size_t len);
#define html5_cleaner_feed(handle, bytes, len) html5_cleaner_feed(handle, html5_bytes_or_none(bytes), len)

/* Ends the page. All that is kept of it can be taken then. */
html5_status html5_cleaner_end(html5_handle *handle);

/* Moves the next bytes of the kept part to `out`, as many as wait and fit, and answers how many. */
size_t html5_cleaner_take(html5_handle *handle, uint8_t *out, size_t len);

/* After HTML5_NOT_UTF8: the place of the first byte that is not UTF-8, as `html5_error_at` says it. */
uint64_t html5_cleaner_error_at(html5_handle *handle);

/* Whether nothing more is read of the page: it has ended, or a call was refused for good. Of a closed one it is false. */
bool html5_cleaner_is_over(html5_handle *handle);

/* Bytes of UTF-8 of its own memory, and how many. A zero byte stands after them, which does not count. */
typedef struct {
    char *at;
    size_t len;
} html5_page;

static inline html5_status html5_take_page(html5_handle *handle, html5_page *kept) {
    for (size_t room = 1 << 14;; room *= 2) {
        char *at = (char *)realloc(kept->at, room + 1);
        if (!at) return HTML5_NO_MEMORY;
        kept->at = at;
        kept->len += html5_cleaner_take(handle, (uint8_t *)at + kept->len, room - kept->len);
        at[kept->len] = 0;
        if (kept->len < room) return HTML5_DONE;
    }
}

/*
 * What the cleaner's policy keeps of a whole page. `free(kept->at)` gives its memory back. After any status but HTML5_DONE
 * there is none.
 */
static inline html5_status html5_clean(html5_handle *handle, const char *page, size_t len, html5_page *kept) {
    kept->at = NULL;
    kept->len = 0;
    html5_status status = html5_cleaner_restart(handle);
    if (!status) status = html5_cleaner_feed(handle, page, len);
    if (!status) status = html5_cleaner_end(handle);
    if (!status) status = html5_take_page(handle, kept);
    if (status) {
        free(kept->at);
        kept->at = NULL;
        kept->len = 0;
    }
    return status;
}

/* ---- a reader of records */

/* Bytes of UTF-8, which stay where they are until the reader is filled or freed. */
typedef struct {
    const char *at;
    size_t len;
} html5_text;

enum html5_kind {
    HTML5_START_TAG = 1,
    HTML5_END_TAG = 2,
    HTML5_TEXT = 3,
    HTML5_COMMENT = 4,
    HTML5_INSTRUCTION = 5,
    HTML5_DOCTYPE = 6,
    HTML5_NULL_CHARACTER = 7,
    HTML5_PARSE_ERROR = 8,
    HTML5_END = 9
};

/* What a record begins with that says where the next token stands. */
#define HTML5_PLACES 10

/* The attributes of a tag that were not read yet. */
typedef struct {
    const uint8_t *at;
    uint64_t count;
} html5_attributes;

/* A token. Which members say something depends on the kind. */
typedef struct {
    enum html5_kind kind;
    uint64_t line;                /* the line that was reached; 0 of a text */
    html5_text text;              /* of a tag or DOCTYPE its name; else the text, comment, instruction or message */
    html5_attributes attributes;  /* of a tag */
    bool self_closing;            /* of a tag */
    bool duplicate_attributes;    /* of a tag: an attribute of a repeated name was left out */
    bool has_name, has_public_id, has_system_id, force_quirks; /* of a DOCTYPE */
    html5_text public_id, system_id;                           /* of a DOCTYPE */
    /*
     * With `places` where it stands, in bytes of the text that was read, and where the text before it begins; that ends
     * where the token begins. A text has the place of its run in the source. HTML5_NO_PLACE without.
     */
    uint64_t text_begin, begin, end;
} html5_token;

#define HTML5_NO_PLACE UINT64_MAX

/* Why there is no next token. */
enum html5_stop {
    HTML5_ALL_READ = 0,  /* all that was taken is read */
    HTML5_TEXT_OPEN = 1, /* a text is left whose end has not come */
    HTML5_NOT_WHOLE = 2  /* what is left is no whole record: not all was taken, or it is no record */
};

/* The bytes that were taken of a handle and not read yet, all of one page. One of zeros is empty. */
typedef struct {
    uint8_t *bytes;
    size_t len, room;
    size_t at;            /* where the next record begins */
    size_t searched;      /* how far the end of an open text was looked for */
    enum html5_stop stop; /* after `html5_next_token` answered false */
    bool has_places;      /* places were read that are those of the next tokens */
    uint64_t places[3];
    uint32_t page; /* the number of the page that it was filled from */
} html5_reader;

/* Written out, this is one load where the processor puts low bytes first. */
static inline uint64_t html5_number(const uint8_t *at) {
    return (uint64_t)at[0] | (uint64_t)at[1] << 8 | (uint64_t)at[2] << 16 | (uint64_t)at[3] << 24 | (uint64_t)at[4] << 32 |
           (uint64_t)at[5] << 40 | (uint64_t)at[6] << 48 | (uint64_t)at[7] << 56;
}

/* A text with its length in front. It moves the place past it, or to null where fewer bytes are left. */
static inline html5_text html5_counted(const uint8_t **at, const uint8_t *end) {
    html5_text text = {"", 0};
    if (!*at || end - *at < 8 || (uint64_t)(end - *at - 8) < html5_number(*at)) {
        *at = NULL;
        return text;
    }
    text.len = (size_t)html5_number(*at);
    text.at = (const char *)*at + 8;
    *at += 8 + text.len;
    return text;
}

/* The next attribute of a tag. It answers whether there is one. */
static inline bool html5_next_attribute(html5_attributes *left, html5_text *name, html5_text *value) {
    if (left->count == 0) return false;
    name->len = (size_t)html5_number(left->at);
    name->at = (const char *)left->at + 8;
    value->len = (size_t)html5_number(left->at + 8 + name->len);
    value->at = name->at + name->len + 8;
    left->at += 16 + name->len + value->len;
    left->count--;
    return true;
}

/* A tag's name and attributes, from its flags on. It answers the place after them, or null. */
static inline const uint8_t *html5_read_tag(html5_token *token, const uint8_t *at, const uint8_t *end) {
    if (at == end) return NULL;
    token->self_closing = *at & 1;
    token->duplicate_attributes = *at & 2;
    at++;
    token->text = html5_counted(&at, end);
    if (!at || end - at < 8) return NULL;
    token->attributes.count = html5_number(at);
    token->attributes.at = at += 8;
    for (uint64_t left = token->attributes.count; at && left > 0; left--) {
        html5_counted(&at, end);
        html5_counted(&at, end);
    }
    return at;
}

/* The parts of a DOCTYPE, from its flags on. It answers the place after them, or null. */
static inline const uint8_t *html5_read_doctype(html5_token *token, const uint8_t *at, const uint8_t *end) {
    if (at == end) return NULL;
    token->has_name = *at & 1;
    token->has_public_id = *at & 2;
    token->has_system_id = *at & 4;
    token->force_quirks = *at & 8;
    at++;
    if (token->has_name) token->text = html5_counted(&at, end);
    if (token->has_public_id) token->public_id = html5_counted(&at, end);
    if (token->has_system_id) token->system_id = html5_counted(&at, end);
    return at;
}

/* Any other record than a text's. It answers the place after it, or null where it is not whole. */
static inline const uint8_t *html5_read_other(html5_token *token, const uint8_t *at, const uint8_t *end) {
    if (end - at < 9) return NULL;
    token->line = html5_number(at + 1);
    at += 9;
    switch (token->kind) {
    case HTML5_START_TAG:
    case HTML5_END_TAG:
        return html5_read_tag(token, at, end);
    case HTML5_DOCTYPE:
        return html5_read_doctype(token, at, end);
    case HTML5_COMMENT:
    case HTML5_INSTRUCTION:
    case HTML5_PARSE_ERROR:
        token->text = html5_counted(&at, end);
        return at;
    default:
        return at;
    }
}

/* A text's record. It answers the place after it, or null where its end has not come. */
static inline const uint8_t *html5_read_text(html5_reader *reader, html5_token *token) {
    const uint8_t *begin = reader->bytes + reader->at + 1;
    size_t from = reader->searched > reader->at + 1 ? reader->searched : reader->at + 1;
    const uint8_t *stop = (const uint8_t *)memchr(reader->bytes + from, 0xFF, reader->len - from);
    if (!stop) {
        reader->searched = reader->len;
        return NULL;
    }
    token->text.at = (const char *)begin;
    token->text.len = (size_t)(stop - begin);
    return stop + 1;
}

/* The record of places, if one is next: it goes before the run and the token that it is of. It answers whether it is whole. */
static inline bool html5_read_places(html5_reader *reader) {
    if (reader->bytes[reader->at] != HTML5_PLACES) return true;
    if (reader->len - reader->at < 25) return false;
    for (int i = 0; i < 3; i++) reader->places[i] = html5_number(reader->bytes + reader->at + 1 + 8 * i);
    reader->has_places = true;
    reader->at += 25;
    return reader->at < reader->len;
}

/* Sets where a token stands, if that was read. A text stands where the run before the next token does. */
static inline void html5_set_places(const html5_reader *reader, html5_token *token) {
    if (!reader->has_places) return;
    const uint64_t *place = reader->places + (token->kind == HTML5_TEXT ? 0 : 1);
    token->text_begin = reader->places[0];
    token->begin = place[0];
    token->end = place[1];
}

/* A token of which its kind alone is known. Each member is set by itself: as gcc compiles it, that is faster than clearing
 * all of it. */
static inline void html5_begin_token(html5_token *token, uint8_t kind) {
    const html5_text none = {"", 0};
    token->kind = (enum html5_kind)kind;
    token->line = 0;
    token->text = token->public_id = token->system_id = none;
    token->attributes.at = NULL;
    token->attributes.count = 0;
    token->self_closing = token->duplicate_attributes = false;
    token->has_name = token->has_public_id = token->has_system_id = token->force_quirks = false;
    token->text_begin = token->begin = token->end = HTML5_NO_PLACE;
}

/* The next token that was taken whole. It answers whether there is one, and if not `reader->stop` says why. */
static inline bool html5_next_token(html5_reader *reader, html5_token *token) {
    reader->stop = HTML5_ALL_READ;
    if (reader->at == reader->len) return false;
    if (!html5_read_places(reader)) {
        if (reader->at < reader->len) reader->stop = HTML5_NOT_WHOLE;
        return false;
    }
    html5_begin_token(token, reader->bytes[reader->at]);
    const uint8_t *after = token->kind == HTML5_TEXT
                               ? html5_read_text(reader, token)
                               : html5_read_other(token, reader->bytes + reader->at, reader->bytes + reader->len);
    if (!after) {
        reader->stop = token->kind == HTML5_TEXT ? HTML5_TEXT_OPEN : HTML5_NOT_WHOLE;
        return false;
    }
    reader->at = (size_t)(after - reader->bytes);
    html5_set_places(reader, token);
    return true;
}

/* Lets what was read go. */
static inline void html5_drop_read(html5_reader *reader) {
    reader->len -= reader->at;
    memmove(reader->bytes, reader->bytes + reader->at, reader->len);
    reader->searched -= reader->searched < reader->at ? reader->searched : reader->at;
    reader->at = 0;
}

/*
 * Makes room for `more` bytes. It answers whether there was memory. Bytes are moved only where at least as many were read, and
 * the room is doubled: so each byte is moved a few times at most, however often a page is filled from.
 */
static inline bool html5_make_room(html5_reader *reader, size_t more) {
    if (reader->at > 0 && reader->at == reader->len) html5_drop_read(reader);
    if (reader->room - reader->len >= more) return true;
    if (reader->at > 0 && reader->at >= reader->len - reader->at) html5_drop_read(reader);
    if (reader->room - reader->len >= more) return true;
    size_t least = reader->len + more, room = 2 * reader->room > least ? 2 * reader->room : least;
    uint8_t *bytes = (uint8_t *)realloc(reader->bytes, room);
    if (!bytes) return false;
    reader->bytes = bytes;
    reader->room = room;
    return true;
}

/* Empties the reader, for records of this page. */
static inline void html5_begin_reading(html5_reader *reader, uint32_t page) {
    reader->len = reader->at = reader->searched = 0;
    reader->has_places = false;
    reader->stop = HTML5_ALL_READ;
    reader->page = page;
}

/*
 * Takes all that waits in the handle. Texts of earlier tokens are gone then. Where the handle has begun another page, or it is
 * another handle, what was not read of the page before is gone, too. It answers whether there was memory.
 */
static inline bool html5_fill(html5_reader *reader, html5_handle *handle) {
    enum { MORE = 1 << 14 };
    if (reader->page != handle->page) html5_begin_reading(reader, handle->page);
    for (;;) {
        if (!html5_make_room(reader, MORE)) return false;
        size_t room = reader->room - reader->len, taken = html5_take(handle, reader->bytes + reader->len, room);
        reader->len += taken;
        if (taken < room) return true;
    }
}

/* Gives back the reader's memory. It may be used again then, and tokens that were read of it are gone. */
static inline void html5_reader_free(html5_reader *reader) {
    free(reader->bytes);
    memset(reader, 0, sizeof *reader);
}

#ifdef __cplusplus
}
#endif

#endif
