/* Prints its input, for the self-test of tools/worked/faults.py: with the mistake that its word names, or with none.
 *
 * It reads all, writes it, and says `note`. It ends with 1 where it could not, and says why, except a reader that went
 * away: then it ends with 0 and says nothing.
 */
#include <errno.h>
#include <stdio.h>
#include <stdlib.h>
#include <string.h>
#include <unistd.h>

static const char *mistake;

static int has(const char *name) {
    return strcmp(mistake, name) == 0;
}

static int say(const char *line) {
    for (size_t at = 0; line[at];) {
        ssize_t taken = write(2, line + at, strlen(line + at));
        if (taken <= 0)
            return -1;
        at += (size_t)taken;
    }
    return 0;
}

static void end(const char *line) {
    say(line);
    _exit(1);
}

/* Room for so many bytes, of which some are there. */
static char *grown(char *bytes, size_t room) {
    char *more = realloc(bytes, room);
    if (more)
        return more;
    if (has("is quiet"))
        _exit(1);
    if (has("crashes"))
        *(volatile char *)more = 0;
    if (has("prints more") && write(1, "x", 1) != 1)
        _exit(1);
    if (!has("swallows"))
        end("planted: out of memory\n");
    return NULL;
}

static char *input;
static size_t length;

static void read_all(void) {
    for (size_t room = 0;;) {
        if (length == room) {
            char *more = grown(input, room = 2 * room + 4);
            if (!more)
                return;
            input = more;
        }
        ssize_t given = read(0, input + length, room - length);
        if (given < 0 && has("prints what came"))
            return;
        if (given < 0 && !has("ends early"))
            end("planted: a read failed\n");
        if (given <= 0)
            return;
        if (has("splits") && given < 3)
            input[length] = ' ';
        length += (size_t)given;
    }
}

/* What is done about a write that failed: answers whether its bytes were written. */
static int failed_write(ssize_t answer) {
    if (answer < 0 && errno == EPIPE && !has("blames its reader"))
        _exit(0);
    if (has("tries again"))
        return 0;
    if (has("goes on"))
        return 1;
    if (has("is done"))
        _exit(0);
    while (has("hangs"))
        ;
    end("planted: a write failed\n");
    return 0;
}

static void write_all(void) {
    for (size_t at = 0; at < length;) {
        ssize_t taken = write(1, input + at, length - at);
        if (taken <= 0)
            at += (size_t)failed_write(taken);
        else
            at = has("drops") ? length : at + (size_t)taken;
    }
}

int main(int count, char **words) {
    mistake = count == 2 ? words[1] : "";
    read_all();
    write_all();
    if (say("note\n") && has("ends otherwise"))
        return 1;
    return 0;
}
