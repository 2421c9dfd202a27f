/*
 * Prints what the standard policy, or that of a file, keeps of the page on standard input, as firnuubal clean does.
 *
 *     clean [PIECE [POLICY]] < PAGE
 *
 * The page is fed in pieces of PIECE bytes, or 4096.
 */
#include "../firnuubal.h"

#include <inttypes.h>
#include <stdio.h>

static void print_waiting(html5_handle *cleaner) {
    uint8_t out[4096];
    for (size_t len; (len = html5_cleaner_take(cleaner, out, sizeof out)) > 0;) fwrite(out, 1, len, stdout);
}

static uint8_t policy[1 << 16];

/* Reads the policy of a file. It answers its length, or exits where it can't be read whole. */
static size_t read_policy(const char *file) {
    FILE *rules = fopen(file, "rb");
    size_t len = rules ? fread(policy, 1, sizeof policy, rules) : 0;
    if (!rules || ferror(rules) || len == sizeof policy) {
        fprintf(stderr, "%s: %s\n", file, rules && !ferror(rules) ? "too long for a policy" : "it can't be read");
        exit(2);
    }
    fclose(rules);
    return len;
}

static html5_status open_by(html5_handle *cleaner, const char *file) {
    uint64_t place = 0;
    size_t len = file ? read_policy(file) : 0;
    /* A text of no bytes would be the standard policy. An empty file has no rule. */
    if (file && len == 0) policy[len++] = '\n';
    html5_status status = html5_cleaner_new(cleaner, policy, len, &place);
    if (html5_is_rule_fault(status)) fprintf(stderr, "line %" PRIu64 " of %s: ", place, file);
    return status;
}

static html5_status print_page(html5_handle *cleaner, size_t piece) {
    static uint8_t bytes[1 << 16];
    html5_status status = HTML5_DONE;
    for (size_t len; status == HTML5_DONE && (len = fread(bytes, 1, piece, stdin)) > 0;) {
        status = html5_cleaner_feed(cleaner, bytes, len);
        print_waiting(cleaner);
    }
    if (status == HTML5_DONE) status = html5_cleaner_end(cleaner);
    print_waiting(cleaner);
    return status;
}

int main(int count, char **words) {
    size_t piece = count > 1 ? strtoul(words[1], NULL, 10) : 4096;
    if (piece == 0 || piece > 1 << 16) return 2;
    html5_handle cleaner = {0};
    html5_status status = open_by(&cleaner, count > 2 ? words[2] : NULL);
    if (status == HTML5_DONE) status = print_page(&cleaner, piece);
    if (status != HTML5_DONE) fprintf(stderr, "%s\n", html5_status_text(status));
    html5_free(&cleaner);
    return (int)status;
}
