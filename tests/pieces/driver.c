/* Answers lines of the form of tests/reference/pieces.py by the C interface; tests/pieces.sh builds and runs it.
 *
 *   driver < LINES
 *
 * Prints each line with the engine's answer behind ` > `, in place of the one that it has. Every image is handed over as the line says, in one
 * piece and byte by byte, which must leave the same answer and the same state; of a short one the answer after each piece must be that of the
 * check for the bytes so far. A line of which that is not so says what was wrong, as does one whose calls wrote where they must not or gave an
 * answer with other bits.
 *
 * Each slice that is lent ends where a page that may not be touched begins, so that one byte read or written past it ends the program; before
 * it stand guard bytes.
 */
#define _DEFAULT_SOURCE
#include <stdarg.h>
#include <stdio.h>
#include <stdlib.h>
#include <string.h>
#include <sys/mman.h>

#include "pewterslug.h"

enum { PAGE = 4096, PIECE_ROOM = 16 * PAGE, GUARD = 64, GUARD_BYTE = 0xA5, HELD = 0xAA, SHORT = 400 };

/* An image, and the offsets at which it is cut. */
struct image {
    uint8_t *bytes;
    size_t length;
};

struct cuts {
    size_t *at;
    size_t count;
};

static uint8_t *state, *piece_end;
static char wrong[200];

static void stop(const char *what, const char *text)
{
    fprintf(stderr, "pieces: %s: %.60s\n", what, text);
    exit(2);
}

static void *room_for(size_t bytes)
{
    void *room = malloc(bytes > 0 ? bytes : 1);
    if (room == NULL)
        stop("no memory", "");
    return room;
}

/* Where pages end behind which none may be touched. */
static uint8_t *pages(size_t bytes)
{
    uint8_t *room = mmap(NULL, bytes + PAGE, PROT_READ | PROT_WRITE, MAP_PRIVATE | MAP_ANONYMOUS, -1, 0);
    if (room == MAP_FAILED || mprotect(room + bytes, PAGE, PROT_NONE) != 0)
        stop("no pages", "");
    return room + bytes;
}

/* Notes what was wrong first. */
static void note(const char *form, ...)
{
    va_list values;
    va_start(values, form);
    if (*wrong == '\0')
        vsnprintf(wrong, sizeof wrong, form, values);
    va_end(values);
}

static int guard_stands(const uint8_t *bytes)
{
    for (size_t place = 1; place <= GUARD; place++)
        if (bytes[-(ptrdiff_t)place] != GUARD_BYTE)
            return 0;
    return 1;
}

/* Whether an answer is one that the check may have: accepted without anything else, or a number and an offset. */
static int is_verdict(uint64_t answer)
{
    return answer == 0 || (pewterslug_number(answer) >= 1 && pewterslug_number(answer) <= 8 && (answer & 0xFFFFFF00) == 0);
}

static void start(void)
{
    memset(state - GUARD, GUARD_BYTE, GUARD);
    memset(state, HELD, PEWTERSLUG_CHECK_BYTES);
    if (pewterslug_check_start(state, PEWTERSLUG_CHECK_BYTES) != (uint64_t)PEWTERSLUG_CHECK_BYTES << 32 || !guard_stands(state))
        note("a start that is none");
}

/* Hands a piece over, in a place of its own. */
static void hand_over(const uint8_t *bytes, size_t length)
{
    uint8_t before[PEWTERSLUG_CHECK_BYTES], *piece = piece_end - length;
    if (length > PIECE_ROOM - GUARD)
        stop("too long a piece", "");
    memcpy(before, state, sizeof before);
    memset(piece - GUARD, GUARD_BYTE, GUARD);
    memcpy(piece, bytes, length);
    if (pewterslug_check_piece(state, PEWTERSLUG_CHECK_BYTES, piece, length) != 0)
        note("a piece is refused");
    if (memcmp(piece, bytes, length) != 0 || !guard_stands(piece) || !guard_stands(state))
        note("a piece wrote where it must not");
    if (length == 0 && memcmp(before, state, sizeof before) != 0)
        note("an empty piece changed the state");
}

static uint64_t answer_now(void)
{
    uint8_t before[PEWTERSLUG_CHECK_BYTES];
    memcpy(before, state, sizeof before);
    uint64_t answer = pewterslug_check_answer(state, PEWTERSLUG_CHECK_BYTES);
    if (memcmp(before, state, sizeof before) != 0 || !guard_stands(state))
        note("the answer wrote where it must not");
    if (!is_verdict(answer))
        note("an answer of other bits: %016llX", (unsigned long long)answer);
    return answer;
}

/* The answer after the last piece; `left` gets the state. */
static uint64_t in_pieces(struct image image, struct cuts cuts, uint8_t *left)
{
    uint64_t answer;
    start();
    for (size_t place = 0; place <= cuts.count; place++) {
        size_t begin = place > 0 ? cuts.at[place - 1] : 0, end = place < cuts.count ? cuts.at[place] : image.length;
        hand_over(image.bytes + begin, end - begin);
        if (image.length <= SHORT && (answer = answer_now()) != pewterslug_check(image.bytes, end))
            note("after %zu bytes %u %lu", end, pewterslug_number(answer), (unsigned long)pewterslug_offset(answer));
    }
    memcpy(left, state, PEWTERSLUG_CHECK_BYTES);
    return answer_now();
}

static int digit(char c)
{
    static const char digits[] = "0123456789abcdef";
    const char *place = strchr(digits, c >= 'A' && c <= 'F' ? c - 'A' + 'a' : c);
    if (c == '\0' || place == NULL)
        stop("no digit", &c);
    return (int)(place - digits);
}

/* A number, behind which `text` then goes on. */
static size_t number(const char **text)
{
    char *end;
    unsigned long long found = strtoull(*text, &end, 10);
    if (end == *text)
        stop("no number", *text);
    *text = end;
    return (size_t)found;
}

/* Bytes as digits, `DIGITS*COPIES`, several of them with `+` between, or `-` for none; up to a space or the end. */
static struct image image_of(const char **text)
{
    struct image image = {NULL, 0};
    if (**text == '-') {
        (*text)++;
        image.bytes = room_for(0);
        return image;
    }
    do {
        const char *digits = *text + (**text == '+');
        size_t length = strcspn(digits, "*+ ") / 2, copies = 1;
        *text = digits + 2 * length;
        if (**text == '*') {
            (*text)++;
            copies = number(text);
        }
        image.bytes = realloc(image.bytes, image.length + copies * length + 1);
        if (image.bytes == NULL)
            stop("no memory", "");
        for (size_t place = 0; place < copies * length; place++) {
            const char *pair = digits + 2 * (place % length);
            image.bytes[image.length + place] = (uint8_t)(digit(pair[0]) << 4 | digit(pair[1]));
        }
        image.length += copies * length;
    } while (**text == '+');
    if (**text != ' ' && **text != '\0')
        stop("no image", *text);
    return image;
}

/* A cut after every so many bytes. */
static struct cuts cuts_every(size_t size, size_t length)
{
    struct cuts cuts = {room_for((length + 1) * sizeof(size_t)), 0};
    if (size == 0)
        stop("pieces of no bytes", "");
    for (size_t at = size; at < length; at += size)
        cuts.at[cuts.count++] = at;
    return cuts;
}

/* Offsets with commas between, ascending; `/N` for a cut after every N bytes; or `-` for none. */
static struct cuts cuts_of(const char *text, size_t length)
{
    if (*text == '/') {
        text++;
        return cuts_every(number(&text), length);
    }
    struct cuts cuts = {room_for((strlen(text) + 1) * sizeof(size_t)), 0};
    if (strcmp(text, "-") == 0)
        return cuts;
    for (;; text++) {
        cuts.at[cuts.count] = number(&text);
        if (cuts.at[cuts.count] > length || (cuts.count > 0 && cuts.at[cuts.count] < cuts.at[cuts.count - 1]))
            stop("no offset", text);
        cuts.count++;
        if (*text == '\0')
            return cuts;
        if (*text != ',')
            stop("no offsets", text);
    }
}

/* The same image cut otherwise comes to the same. */
static void compare(const char *how, struct image image, struct cuts cuts, uint64_t answer, const uint8_t *left)
{
    uint8_t other[PEWTERSLUG_CHECK_BYTES];
    uint64_t given = in_pieces(image, cuts, other);
    if (given != answer)
        note("%s %u %lu", how, pewterslug_number(given), (unsigned long)pewterslug_offset(given));
    if (left != NULL && memcmp(left, other, sizeof other) != 0)
        note("%s another state", how);
}

/* `check IMAGE` or `pieces IMAGE CUTS`. */
static void run(const char *asked)
{
    int whole = strncmp(asked, "check ", 6) == 0;
    if (!whole && strncmp(asked, "pieces ", 7) != 0)
        stop("no such line", asked);
    const char *rest = asked + (whole ? 6 : 7);
    struct image image = image_of(&rest);
    if (whole ? *rest != '\0' : *rest != ' ')
        stop("no such line", asked);
    struct cuts cuts = cuts_of(whole ? "-" : rest + 1, image.length), single = cuts_every(1, image.length), none = {NULL, 0};
    uint8_t left[PEWTERSLUG_CHECK_BYTES];
    uint64_t answer = whole ? pewterslug_check(image.bytes, image.length) : 0, given;
    *wrong = '\0';
    if (!is_verdict(answer))
        note("an answer of other bits: %016llX", (unsigned long long)answer);
    given = in_pieces(image, cuts, left);
    if (whole && given != answer)
        note("in one piece %u %lu", pewterslug_number(given), (unsigned long)pewterslug_offset(given));
    if (!whole) {
        answer = given;
        compare("in one piece", image, none, answer, left);
    }
    compare("byte by byte", image, single, answer, left);
    if (*wrong != '\0')
        printf("%s\n", wrong);
    else if (answer == 0)
        printf("ok\n");
    else
        printf("%u %lu\n", pewterslug_number(answer), (unsigned long)pewterslug_offset(answer));
    free(image.bytes), free(cuts.at), free(single.at);
}

int main(void)
{
    char *line = NULL;
    size_t size = 0;
    state = pages(PAGE) - PEWTERSLUG_CHECK_BYTES, piece_end = pages(PIECE_ROOM);
    while (getline(&line, &size, stdin) > 0) {
        line[strcspn(line, "\n")] = '\0';
        if (*line == '#') {
            printf("%s\n", line);
            continue;
        }
        char *answer = strstr(line, " > ");
        if (answer != NULL)
            *answer = '\0';
        printf("%s > ", line);
        fflush(stdout);
        run(line);
    }
    free(line);
    return 0;
}
