/*
 * A fuzzer of the calls, over the header: each input is a script of calls on two handles, each with a reader. What it checks: that
 * a handle is of one kind at a time, that each call answers a status that it has, that records are whole, and that nothing
 * outside a buffer is touched. Each buffer is of malloc, and just as long as its bytes, so that AddressSanitizer sees what
 * the archive, which is compiled without it, copies past it.
 *
 *     gcc -g -O1 -fsanitize=address,undefined -fno-sanitize-recover=all calls.c libfirnuubal.a -o fuzz-c
 *     ./fuzz-c [--seconds N] [--seed N] [FILE..]
 *
 * It runs each file, and then inputs of its own for so many seconds (by default none). The input at which a check
 * fails is left in the file fuzz-failed. Or by libFuzzer:
 *
 *     clang -g -O1 -DLIBFUZZER -fsanitize=fuzzer,address,undefined calls.c libfirnuubal.a -o fuzz-c && ./fuzz-c corpus
 */
#include "../firnuubal.h"

#include <stdio.h>
#include <time.h>

/* ---- what goes in */

/* The bytes of a script that were not read yet. After the end there are zeros. */
typedef struct {
    const uint8_t *at;
    size_t left;
} script;

static uint8_t next_byte(script *in) {
    if (in->left == 0) return 0;
    in->left--;
    return *in->at++;
}

/* Bytes of malloc, just as many as there are. */
typedef struct {
    uint8_t *at;
    size_t len;
} buffer;

static buffer copied(const void *bytes, size_t len) {
    buffer made = {(uint8_t *)malloc(len), len};
    if (len > 0) memcpy(made.at, bytes, len);
    return made;
}

/* The next bytes of the script, up to 63 as they are. */
static buffer raw_bytes(script *in) {
    size_t len = next_byte(in) % 64;
    if (len > in->left) len = in->left;
    buffer made = copied(in->at, len);
    in->at += len;
    in->left -= len;
    return made;
}

/* One of these, or some bytes as they are. */
static buffer one_of(script *in, const char *const *texts, size_t count) {
    size_t at = next_byte(in) % (count + 1);
    return at == count ? raw_bytes(in) : copied(texts[at], strlen(texts[at]));
}
#define ONE_OF(in, texts) one_of(in, texts, sizeof texts / sizeof *texts)

static const char *const pages[] = {
    "<p>", "</p>", "text", "<script>", "</script>", "<meta charset=koi8-r>", "<![CDATA[x]]>", "<table><tr><td>", "</table>",
    "<!--", "-->", "<!DOCTYPE html PUBLIC 'a' \"b\">", "<a href=javascript:x onclick=y title='&lt;'>", "</a>", "<b><i>", "</b>",
    "&amp", "&notit;", "<svg><style>", "</svg>", "<title><b></title>", "<plaintext>", "<textarea>", "\r\n", "\0", "\xc3", "\xa9",
    "\xff", "\xef\xbb\xbf", "<", "=\"", "'", "<img src=data:x srcset=y>", "<?pi?>", "</", "<p a a=1 b>", "&#x1F600;", "<br/>",
};

static const char *const labels[] = {"", "utf-8", "latin1", "shift_jis", "iso-2022-jp", "utf-16le", "gb18030", "x-user-defined", "none"};

static const char *const tags[] = {"", "title", "style", "script", "p"};

static const char *const names[] = {
    "p", "b", "a", "q", "td", "table", "x-y", "script", "meta", "href", "src", "class", "style", "onclick", "https", "javascript",
    "noopener", "nofollow", "256", "1", "4097", "", "P", "b\nallow img", "b\0", "\xff", "a b",
};

static const char *const policies[] = {
    "", "allow p class\nallow a href\nschemes https\nnoopener\n", "allow b\nallow p\ntree\ndepth 3\n", "allow x-y\nbalance\n",
    "allow b\nhide q\neverywhere lang\n", "allow script\n", "\n", "allow p\xff\n",
};

/* ---- what is known */

typedef enum { CLOSED, TOKENIZER, PLACED, POLICY, CLEANER } kind;

/* A handle, a reader of it, and what is known of it. */
typedef struct {
    html5_handle handle;
    html5_reader reader;
    kind is;
    uint32_t replies;
    bool has_ended, has_begun, has_encoding;
} session;

static const uint8_t *running;
static size_t running_len;

static void leave_input(void) {
    FILE *file = fopen("fuzz-failed", "wb");
    if (!file) return;
    fwrite(running, 1, running_len, file);
    fclose(file);
}

static void check(bool holds, const char *what, int line) {
    if (holds) return;
    fprintf(stderr, "%s:%d: %s\n", __FILE__, line, what);
    leave_input();
    abort();
}
#define CHECK(holds) check(holds, #holds, __LINE__)

/* A status is one of the bits. */
#define IS(status) (1u << (status))
enum {
    PAUSES = IS(HTML5_SCRIPT) | IS(HTML5_ENCODING) | IS(HTML5_TAG),
    FEEDS = IS(HTML5_DONE) | IS(HTML5_NOT_UTF8) | IS(HTML5_OVER) | IS(HTML5_LIMIT),
    ENDS = IS(HTML5_DONE) | IS(HTML5_CUT) | IS(HTML5_OVER),
};

/* Checks a status: HTML5_CLOSED just where the handle is of none of these kinds, or else one of these. */
static void check_status(const session *of, unsigned kinds, html5_status status, unsigned known) {
    bool is_open = kinds & 1u << of->is;
    CHECK((status == HTML5_CLOSED) == !is_open);
    CHECK(!is_open || (known & IS(status)));
    CHECK(strcmp(html5_status_text(status), "no such status") != 0);
}

/* The pauses that the options ask for. */
static unsigned pauses_of(const session *of) {
    if (of->replies == HTML5_PAUSING_REPLIES) return IS(HTML5_SCRIPT) | IS(HTML5_ENCODING);
    return of->replies == HTML5_CALLER_REPLIES ? IS(HTML5_TAG) : 0;
}

static void begin(session *of, kind is) {
    of->is = is;
    of->has_ended = of->has_begun = false;
    CHECK(of->handle.is_open == (is != CLOSED));
}

/* ---- the calls of a tokenizer */

static html5_options options_of(script *in) {
    uint8_t numbers = next_byte(in), flags = next_byte(in);
    html5_options options = {numbers % 7, numbers / 8 % 5, flags & 1, flags & 2, (flags & 12) == 12, (flags & 48) == 48};
    return options;
}

static void call_new(session *of, script *in) {
    html5_options options = options_of(in);
    buffer tag = ONE_OF(in, tags);
    html5_status status = html5_new(&of->handle, html5_bytes_or_none(tag.at), tag.len, &options);
    CHECK(IS(status) & (IS(HTML5_DONE) | IS(HTML5_BAD_OPTION) | IS(HTML5_NOT_UTF8)));
    begin(of, status ? CLOSED : options.places ? PLACED : TOKENIZER);
    of->replies = options.replies;
    of->has_encoding = false;
    free(tag.at);
}

static void call_restart(session *of, script *in) {
    html5_options options = options_of(in);
    buffer tag = ONE_OF(in, tags);
    html5_status status = html5_restart(&of->handle, html5_bytes_or_none(tag.at), tag.len, &options);
    check_status(of, IS(TOKENIZER) | IS(PLACED), status, IS(HTML5_DONE) | IS(HTML5_BAD_OPTION) | IS(HTML5_NOT_UTF8));
    if (status == HTML5_DONE) {
        CHECK(options.places == (of->is == PLACED));
        begin(of, of->is);
        of->replies = options.replies;
    }
    free(tag.at);
}

static void call_feed(session *of, script *in) {
    buffer page = ONE_OF(in, pages);
    html5_status status = html5_feed(&of->handle, page.at, page.len);
    check_status(of, IS(TOKENIZER) | IS(PLACED), status, FEEDS | pauses_of(of));
    CHECK(!of->has_ended || status == HTML5_OVER || status == HTML5_CLOSED);
    CHECK(!of->has_encoding || status != HTML5_NOT_UTF8);
    of->has_begun = of->has_begun || page.len > 0;
    free(page.at);
}

static void call_insert(session *of, script *in) {
    buffer text = ONE_OF(in, pages);
    html5_status status = html5_insert(&of->handle, html5_bytes_or_none(text.at), text.len);
    check_status(of, IS(TOKENIZER), status, FEEDS);
    free(text.at);
}

static void call_reply(session *of, script *in) {
    html5_status status = html5_reply(&of->handle, next_byte(in) % 7);
    check_status(of, IS(TOKENIZER), status, IS(HTML5_DONE) | IS(HTML5_OVER) | IS(HTML5_BAD_OPTION) | IS(HTML5_ITEM_OPEN));
}

static void call_set_foreign(session *of, script *in) {
    html5_status status = html5_set_foreign(&of->handle, next_byte(in) & 1);
    check_status(of, IS(TOKENIZER), status, IS(HTML5_DONE) | IS(HTML5_OVER));
}

static void call_set_limit(session *of, script *in) {
    uint8_t limit = next_byte(in);
    html5_status status = html5_set_limit(&of->handle, limit < 128 ? UINT64_MAX : limit);
    check_status(of, IS(TOKENIZER) | IS(PLACED) | IS(CLEANER), status, IS(HTML5_DONE));
}

static void call_set_encoding(session *of, script *in) {
    buffer label = ONE_OF(in, labels);
    html5_status status = html5_set_encoding(&of->handle, label.at, label.len);
    check_status(of, IS(TOKENIZER) | IS(CLEANER), status,
                 IS(HTML5_DONE) | IS(HTML5_BAD_OPTION) | IS(HTML5_BEGUN) | IS(HTML5_OVER));
    if (status == HTML5_DONE) of->has_encoding = true;
    free(label.at);
}

static void call_end(session *of, script *in) {
    (void)in;
    html5_status status = html5_end(&of->handle);
    check_status(of, IS(TOKENIZER) | IS(PLACED), status, ENDS | IS(HTML5_WAITING) | IS(HTML5_NOT_UTF8) | pauses_of(of));
    if (status == HTML5_DONE) of->has_ended = true;
    CHECK(!of->has_ended || of->is == CLEANER || html5_is_over(&of->handle));
}

/* ---- the reader */

/* Looks at each byte of a text. */
static void touch(html5_text text) {
    volatile uint8_t seen = 0;
    for (size_t at = 0; at < text.len; at++) seen ^= (uint8_t)text.at[at];
    (void)seen;
}

static void touch_code(html5_text message) {
    uint8_t code[HTML5_ERROR_CODE_ROOM];
    size_t len = html5_error_code(message.at, message.len, code, sizeof code);
    CHECK(len <= sizeof code);
}

static void touch_token(const session *of, const html5_token *token) {
    touch(token->text);
    touch(token->public_id);
    touch(token->system_id);
    html5_attributes left = token->attributes;
    for (html5_text name, value; html5_next_attribute(&left, &name, &value);) {
        touch(name);
        touch(value);
    }
    if (token->kind == HTML5_PARSE_ERROR) touch_code(token->text);
    CHECK(token->kind >= HTML5_START_TAG && token->kind <= HTML5_END);
    CHECK((token->begin != HTML5_NO_PLACE) == (of->is == PLACED));
    CHECK(token->begin <= token->end);
    CHECK(token->kind != HTML5_END || of->has_ended);
}

/* Fills the reader, and reads some tokens, or all. All that waits is whole. */
static void call_read(session *of, script *in) {
    size_t most = next_byte(in) % 8;
    html5_token token;
    CHECK(html5_fill(&of->reader, &of->handle));
    for (size_t count = 0; most == 7 || count < most; count++) {
        if (!html5_next_token(&of->reader, &token)) {
            CHECK(of->reader.stop != HTML5_NOT_WHOLE);
            CHECK(of->reader.stop == HTML5_ALL_READ || !of->has_ended);
            break;
        }
        touch_token(of, &token);
    }
}

/* ---- policies and the cleaner */

static void call_policy_new(session *of, script *in) {
    (void)in;
    CHECK(html5_policy_new(&of->handle) == HTML5_DONE);
    begin(of, POLICY);
}

static void call_policy_add(session *of, script *in) {
    uint32_t rule = next_byte(in) % 10;
    buffer name = ONE_OF(in, names), attribute = {NULL, 0};
    if (rule == HTML5_ATTRIBUTE || next_byte(in) == 0xFF) attribute = ONE_OF(in, names);
    html5_status status = html5_policy_add(&of->handle, rule, name.at, name.len, attribute.at, attribute.len);
    CHECK((status == HTML5_CLOSED) == (of->is != POLICY));
    CHECK(html5_is_rule_fault(status) || (IS(status) & (IS(HTML5_DONE) | IS(HTML5_NOT_UTF8) | IS(HTML5_CLOSED) | IS(HTML5_BAD_OPTION))));
    CHECK(status != HTML5_DONE || rule <= HTML5_DEPTH);
    free(name.at);
    free(attribute.at);
}

static void call_cleaner_begin(session *of, script *in) {
    (void)in;
    html5_status status = html5_cleaner_begin(&of->handle);
    check_status(of, IS(POLICY), status, IS(HTML5_DONE));
    if (status == HTML5_DONE) {
        begin(of, CLEANER);
        of->has_encoding = false;
    }
}

static void call_cleaner_new(session *of, script *in) {
    buffer policy = ONE_OF(in, policies);
    uint64_t place = 0;
    html5_status status = html5_cleaner_new(&of->handle, policy.at, policy.len, &place);
    CHECK(html5_is_rule_fault(status) || (IS(status) & (IS(HTML5_DONE) | IS(HTML5_POLICY_NOT_UTF8))));
    CHECK((place > 0) == html5_is_rule_fault(status) || status == HTML5_POLICY_NOT_UTF8);
    begin(of, status ? CLOSED : CLEANER);
    of->has_encoding = false;
    free(policy.at);
}

static void call_cleaner_restart(session *of, script *in) {
    (void)in;
    html5_status status = html5_cleaner_restart(&of->handle);
    check_status(of, IS(CLEANER), status, IS(HTML5_DONE));
    if (status == HTML5_DONE) begin(of, CLEANER);
}

static void call_cleaner_feed(session *of, script *in) {
    buffer page = ONE_OF(in, pages);
    html5_status status = html5_cleaner_feed(&of->handle, page.at, page.len);
    check_status(of, IS(CLEANER), status, FEEDS);
    CHECK(!of->has_ended || status == HTML5_OVER || status == HTML5_CLOSED);
    of->has_begun = of->has_begun || page.len > 0;
    free(page.at);
}

static void call_cleaner_end(session *of, script *in) {
    (void)in;
    html5_status status = html5_cleaner_end(&of->handle);
    check_status(of, IS(CLEANER), status, ENDS);
    if (status == HTML5_DONE) of->has_ended = true;
}

static void call_cleaner_take(session *of, script *in) {
    buffer out = {NULL, next_byte(in)};
    out.at = (uint8_t *)malloc(out.len + 1);
    out.at = (uint8_t *)realloc(out.at, out.len ? out.len : 1);
    size_t taken = html5_cleaner_take(&of->handle, out.at, out.len);
    CHECK(taken <= out.len && (taken == 0 || of->is == CLEANER));
    free(out.at);
}

static void call_clean(session *of, script *in) {
    buffer page = raw_bytes(in);
    html5_page kept;
    html5_status status = html5_clean(&of->handle, (const char *)page.at, page.len, &kept);
    check_status(of, IS(CLEANER), status, FEEDS | ENDS);
    CHECK((status == HTML5_DONE) == (kept.at != NULL));
    CHECK(!kept.at || kept.at[kept.len] == 0);
    if (of->is == CLEANER) {
        begin(of, CLEANER);
        of->has_ended = status == HTML5_DONE;
    }
    free(kept.at);
    free(page.at);
}

/* ---- the calls of either */

static void call_ask(session *of, script *in) {
    size_t room = next_byte(in) % 20;
    uint8_t *name = (uint8_t *)malloc(room + 1);
    CHECK(html5_encoding(&of->handle, name, room) <= room);
    (void)html5_error_at(&of->handle);
    (void)html5_cleaner_error_at(&of->handle);
    CHECK(!html5_is_over(&of->handle) || of->is == TOKENIZER || of->is == PLACED);
    CHECK(!html5_cleaner_is_over(&of->handle) || of->is == CLEANER);
    free(name);
}

static void call_free(session *of, script *in) {
    (void)in;
    html5_free(&of->handle);
    begin(of, CLOSED);
}

/* With a reader goes what it has taken and not read, so its page goes, too. */
static void call_free_both(session *of, script *in) {
    call_free(of, in);
    html5_reader_free(&of->reader);
}

/* Those that read a page stand more than once, so that random scripts have more of them. */
static void (*const calls[])(session *, script *) = {
    call_new,        call_restart,       call_feed,         call_insert,       call_reply,      call_set_foreign,
    call_set_limit,  call_set_encoding,  call_end,          call_read,         call_policy_new, call_policy_add,
    call_cleaner_begin, call_cleaner_new, call_cleaner_restart, call_cleaner_feed, call_cleaner_end, call_cleaner_take,
    call_clean,      call_ask,           call_free,         call_free_both,  call_feed,       call_feed,
    call_read,       call_cleaner_feed,  call_cleaner_feed, call_policy_add,   call_policy_add, call_cleaner_take,
    call_feed,       call_read,
};

int LLVMFuzzerTestOneInput(const uint8_t *bytes, size_t len);

int LLVMFuzzerTestOneInput(const uint8_t *bytes, size_t len) {
    session sessions[2] = {0};
    script in = {bytes, len};
    running = bytes;
    running_len = len;
    while (in.left > 0) {
        uint8_t call = next_byte(&in);
        calls[call % 32](sessions + (call >= 128), &in);
    }
    for (int at = 0; at < 2; at++) {
        html5_free(&sessions[at].handle);
        html5_reader_free(&sessions[at].reader);
    }
    return 0;
}

/* ---- a driver of its own */
#ifndef LIBFUZZER

/* AddressSanitizer's, where it is there. */
__attribute__((weak)) void __sanitizer_set_death_callback(void (*callback)(void));

static void run_file(const char *name) {
    static uint8_t bytes[1 << 16];
    FILE *file = fopen(name, "rb");
    if (!file) {
        perror(name);
        exit(2);
    }
    buffer input = copied(bytes, fread(bytes, 1, sizeof bytes, file));
    fclose(file);
    LLVMFuzzerTestOneInput(input.at, input.len);
    free(input.at);
}

/* Marsaglia's xorshift, of a state that is never 0. */
static uint64_t next_random(uint64_t *state) {
    *state ^= *state << 13;
    *state ^= *state >> 7;
    *state ^= *state << 17;
    return *state;
}

static void run_random(uint64_t *state) {
    buffer input = {NULL, 1 + next_random(state) % 200};
    input.at = (uint8_t *)malloc(input.len);
    for (size_t at = 0; at < input.len; at++) input.at[at] = (uint8_t)(next_random(state) >> 32);
    /* Half of the scripts begin with a tokenizer or a cleaner. */
    if (next_random(state) & 1) input.at[0] = next_random(state) & 1 ? 0 : 13;
    LLVMFuzzerTestOneInput(input.at, input.len);
    free(input.at);
}

static uint64_t number_of(const char *word) {
    return word ? strtoull(word, NULL, 10) : 0;
}

int main(int count, char **words) {
    uint64_t seconds = 0, state = 1, inputs = 0;
    (void)count;
    if (__sanitizer_set_death_callback) __sanitizer_set_death_callback(leave_input);
    for (words++; *words; words++) {
        if (strcmp(*words, "--seconds") == 0 && words[1]) seconds = number_of(*++words);
        else if (strcmp(*words, "--seed") == 0 && words[1]) state = number_of(*++words) | (uint64_t)1 << 63;
        else run_file(*words), inputs++;
    }
    for (time_t end = time(NULL) + (time_t)seconds; seconds > 0 && time(NULL) < end; inputs++) run_random(&state);
    printf("%llu inputs\n", (unsigned long long)inputs);
    return 0;
}
#endif
