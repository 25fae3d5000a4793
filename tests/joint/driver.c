/* Answers lines of the form of tests/reference/joint.py by the C interface; tests/joint.sh builds and runs it.
 *
 *   driver < LINES
 *
 * Prints each line with the engine's answer behind ` > `, in place of the one that it has. A line whose call changed the image, a guard byte or
 * what lies behind the answer, or whose answer has bits that it must not have, says so. Images are hexadecimal digits, or `-` for none.
 */
#define _POSIX_C_SOURCE 200809L
#include <stdio.h>
#include <stdlib.h>
#include <string.h>

#include "pewterslug.h"

enum { GUARD = 64, GUARD_BYTE = 0xA5, HELD = 0xAA };

enum question { CHECK, STUCK, COUNTS, QUESTIONS };

static const char *const words[QUESTIONS] = {"check ", "stuck ", "counts "};

static void *room_for(size_t bytes)
{
    void *room = malloc(bytes);
    if (room == NULL) {
        perror("joint");
        exit(2);
    }
    return room;
}

static int digit(char c)
{
    static const char digits[] = "0123456789abcdef";
    const char *place = strchr(digits, c >= 'A' && c <= 'F' ? c - 'A' + 'a' : c);
    if (c == '\0' || place == NULL) {
        fprintf(stderr, "joint: no digit: %c\n", c);
        exit(2);
    }
    return (int)(place - digits);
}

/* The bytes of so many digits, between guards. */
static uint8_t *guarded(const char *digits, size_t length)
{
    uint8_t *room = room_for(length + 2 * GUARD);
    memset(room, GUARD_BYTE, length + 2 * GUARD);
    for (size_t place = 0; place < length; place++)
        room[GUARD + place] = digits == NULL ? HELD : (uint8_t)(digit(digits[2 * place]) << 4 | digit(digits[2 * place + 1]));
    return room;
}

static int all(const uint8_t *bytes, size_t length, uint8_t value)
{
    for (size_t place = 0; place < length; place++)
        if (bytes[place] != value)
            return 0;
    return 1;
}

static int guards_stand(const uint8_t *room, size_t length)
{
    return all(room, GUARD, GUARD_BYTE) && all(room + GUARD + length, GUARD, GUARD_BYTE);
}

/* `N B` for a refused call; 0 if the answer has other bits. */
static int refused(uint64_t answer)
{
    if (pewterslug_number(answer) == 0 || answer != (pewterslug_number(answer) | (uint64_t)pewterslug_offset(answer) << 32))
        return 0;
    printf("%u %lu\n", pewterslug_number(answer), (unsigned long)pewterslug_offset(answer));
    return 1;
}

static void show(const char *word, const uint8_t *bytes, uint32_t length)
{
    printf("%s", word);
    for (uint32_t place = 0; place < length; place++)
        printf("%02x", bytes[place]);
    printf("\n");
}

/* What a call did, if it is one that the question may have for an answer. */
static int accepted(enum question question, uint64_t answer, const uint8_t *buffer)
{
    uint32_t length = pewterslug_length(answer);
    if (question == CHECK && answer == 0)
        printf("ok\n");
    else if (question == STUCK && answer == (uint64_t)PEWTERSLUG_FREE << 8)
        printf("free\n");
    else if (question == STUCK && answer == ((uint64_t)PEWTERSLUG_STUCK << 8 | (uint64_t)length << 32))
        show("stuck ", buffer, length);
    else if (question == COUNTS && length != 0 && answer == ((uint64_t)PEWTERSLUG_DONE << 8 | (uint64_t)length << 32))
        show("", buffer, length);
    else
        return 0;
    return 1;
}

/* The number behind the next space, from which `line` then goes on; a line without one is none. */
static uint64_t next_number(const char **line)
{
    char *end = NULL;
    unsigned long long number = 0;
    if (**line == ' ')
        number = strtoull(*line + 1, &end, 10);
    if (end == NULL || end == *line + 1) {
        fprintf(stderr, "joint: no number: %.60s\n", *line);
        exit(2);
    }
    *line = end;
    return number;
}

/* `check IMAGE`, `stuck IMAGE ROOM` or `counts IMAGE LENGTH ROOM`. */
static void run(const char *asked)
{
    enum question question = CHECK;
    while (question < QUESTIONS && strncmp(asked, words[question], strlen(words[question])) != 0)
        question++;
    if (question == QUESTIONS) {
        fprintf(stderr, "joint: no such line: %.60s\n", asked);
        exit(2);
    }
    const char *digits = asked + strlen(words[question]), *rest = digits + strcspn(digits, " ");
    size_t length = *digits == '-' ? 0 : (size_t)(rest - digits) / 2;
    uint64_t words_length = question == COUNTS ? next_number(&rest) : 0, answer;
    size_t room = question != CHECK ? (size_t)next_number(&rest) : 0;
    uint8_t *image = guarded(digits, length), *buffer = guarded(NULL, room), *before = room_for(length + 1);
    memcpy(before, image + GUARD, length);
    if (question == CHECK)
        answer = pewterslug_check(image + GUARD, length);
    else if (question == STUCK)
        answer = pewterslug_find_stuck(image + GUARD, length, buffer + GUARD, room);
    else
        answer = pewterslug_count_words(image + GUARD, length, words_length, buffer + GUARD, room);
    size_t written = pewterslug_length(answer);
    if (memcmp(before, image + GUARD, length) != 0 || !guards_stand(image, length) || !guards_stand(buffer, room))
        printf("wrote where it must not\n");
    else if (written > room || !all(buffer + GUARD + written, room - written, HELD))
        printf("wrote behind its answer\n");
    else if (!accepted(question, answer, buffer + GUARD) && !refused(answer))
        printf("an answer of other bits: %016llX\n", (unsigned long long)answer);
    free(image), free(buffer), free(before);
}

int main(void)
{
    char *line = NULL;
    size_t size = 0;
    while (getline(&line, &size, stdin) > 0) {
        line[strcspn(line, "\n")] = '\0';
        if (*line == '#') {
            printf("%s\n", line);
            continue;
        }
        char *answer = strstr(line, " > ");
        if (answer != NULL)
            *answer = '\0';
        printf("%s > ", line);
        run(line);
    }
    free(line);
    return 0;
}
