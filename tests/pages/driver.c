/* Answers lines of the form of tests/reference/pages.py by the C interface; tests/pages.sh builds and runs it.
 *
 *   driver < LINES
 *
 * Prints each line with the engine's answer behind ` > `, in place of the one that it has. A line whose call wrote where it must not, behind its
 * text or, refused, into the buffer at all, says so, as does one whose answer has other bits or a length that is not the one which the header
 * gives for the image's records.
 *
 * Each slice that is lent ends where a page that may not be touched begins, so that one byte read or written past it ends the program; before
 * it stand guard bytes.
 */
#define _DEFAULT_SOURCE
#include <stdio.h>
#include <stdlib.h>
#include <string.h>
#include <sys/mman.h>

#include "pewterslug.h"

enum { PAGE = 4096, IMAGE_ROOM = 16 * PAGE, BUFFER_ROOM = 200 * PAGE, GUARD = 64, GUARD_BYTE = 0xA5, HELD = 0xAA };

struct image {
    uint8_t *bytes;
    size_t length;
};

static uint8_t *image_end, *buffer_end;

static void stop(const char *what, const char *text)
{
    fprintf(stderr, "pages: %s: %.60s\n", what, text);
    exit(2);
}

/* Where pages end behind which none may be touched. */
static uint8_t *guarded(size_t bytes)
{
    uint8_t *room = mmap(NULL, bytes + PAGE, PROT_READ | PROT_WRITE, MAP_PRIVATE | MAP_ANONYMOUS, -1, 0);
    if (room == MAP_FAILED || mprotect(room + bytes, PAGE, PROT_NONE) != 0)
        stop("no pages", "");
    return room + bytes;
}

static int all(const uint8_t *bytes, size_t length, uint8_t value)
{
    for (size_t place = 0; place < length; place++)
        if (bytes[place] != value)
            return 0;
    return 1;
}

static int digit(char c)
{
    static const char digits[] = "0123456789abcdef";
    const char *place = strchr(digits, c >= 'A' && c <= 'F' ? c - 'A' + 'a' : c);
    if (c == '\0' || place == NULL)
        stop("no digit", &c);
    return (int)(place - digits);
}

/* A number, behind which `text` then goes on. */
static size_t number(const char **text)
{
    char *end;
    unsigned long long found = strtoull(*text, &end, 10);
    if (end == *text)
        stop("no number", *text);
    *text = end;
    return (size_t)found;
}

/* Bytes as digits, `DIGITS*COPIES`, several of them with `+` between, or `-` for none; up to a space. */
static struct image image_of(const char **text)
{
    struct image image = {NULL, 0};
    if (**text == '-') {
        (*text)++;
        return image;
    }
    do {
        const char *digits = *text + (**text == '+');
        size_t length = strcspn(digits, "*+ ") / 2, copies = 1;
        *text = digits + 2 * length;
        if (**text == '*') {
            (*text)++;
            copies = number(text);
        }
        image.bytes = realloc(image.bytes, image.length + copies * length + 1);
        if (image.bytes == NULL)
            stop("no memory", "");
        for (size_t place = 0; place < copies * length; place++) {
            const char *pair = digits + 2 * (place % length);
            image.bytes[image.length + place] = (uint8_t)(digit(pair[0]) << 4 | digit(pair[1]));
        }
        image.length += copies * length;
    } while (**text == '+');
    return image;
}

static void show(const uint8_t *bytes, size_t length)
{
    static const char digits[] = "0123456789abcdef";
    for (size_t place = 0; place < length; place++) {
        putchar(digits[bytes[place] >> 4]);
        putchar(digits[bytes[place] & 15]);
    }
    putchar('\n');
}

/* The bytes that a plan's text has, as the header tells. */
static size_t text_bytes(struct image image)
{
    return pewterslug_print_bytes(pewterslug_record_count(image.bytes, image.length));
}

/* `pages IMAGE ROOM`. */
static void run(const char *asked)
{
    const char *rest = asked + 6;
    if (strncmp(asked, "pages ", 6) != 0)
        stop("no such line", asked);
    struct image image = image_of(&rest), lent;
    if (*rest++ != ' ')
        stop("no such line", asked);
    size_t room = number(&rest);
    if (*rest != '\0' || image.length > IMAGE_ROOM - GUARD || room > BUFFER_ROOM - GUARD)
        stop("no such line, or more than there is room for", asked);

    lent = (struct image){image_end - image.length, image.length};
    uint8_t *buffer = buffer_end - room;
    memset(lent.bytes - GUARD, GUARD_BYTE, GUARD);
    if (image.length > 0)
        memcpy(lent.bytes, image.bytes, image.length);
    memset(buffer - GUARD, GUARD_BYTE, GUARD);
    memset(buffer, HELD, room);
    uint64_t answer = pewterslug_print_plan(lent.bytes, lent.length, buffer, room);
    uint8_t refused = pewterslug_number(answer);
    size_t written = pewterslug_length(answer);

    if (!all(lent.bytes - GUARD, GUARD, GUARD_BYTE) || !all(buffer - GUARD, GUARD, GUARD_BYTE)
        || (image.length > 0 && memcmp(lent.bytes, image.bytes, image.length) != 0))
        printf("wrote where it must not\n");
    else if (written > room || !all(buffer + written, room - written, HELD))
        printf("wrote behind its answer\n");
    else if ((answer & 0xFFFFFF00) != 0) /* did PEWTERSLUG_DONE, and the value is 0 */
        printf("an answer of other bits: %016llX\n", (unsigned long long)answer);
    else if (refused == 0 && (written != text_bytes(lent) || written > PEWTERSLUG_PRINT_BYTES))
        printf("%zu bytes, and %zu by the header\n", written, text_bytes(lent));
    else if (refused == PEWTERSLUG_REFUSAL_BUFFER_TOO_SHORT && room >= text_bytes(lent))
        printf("refused with room for the %zu bytes of the header\n", text_bytes(lent));
    else if (refused != 0)
        printf("%u %lu\n", refused, (unsigned long)pewterslug_offset(answer));
    else
        show(buffer, written);
    free(image.bytes);
}

int main(void)
{
    char *line = NULL;
    size_t size = 0;
    image_end = guarded(IMAGE_ROOM), buffer_end = guarded(BUFFER_ROOM);
    while (getline(&line, &size, stdin) > 0) {
        line[strcspn(line, "\n")] = '\0';
        if (*line == '#') {
            printf("%s\n", line);
            continue;
        }
        char *answer = strstr(line, " > ");
        if (answer != NULL)
            *answer = '\0';
        printf("%s > ", line);
        fflush(stdout);
        run(line);
    }
    free(line);
    return 0;
}
