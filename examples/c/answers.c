/* Answers lines of calls, for a comparison with the program in reference/: examples/run. A line is a function's name without its first word, and its
 * arguments in order: bytes in hex, "-" for none, and numbers in decimal. For a buffer or a list that is written to stands its room alone.
 *
 * The answer is the status and then every number that the function was given to write to, and what it wrote in front of the buffer. Numbers are 7777
 * before the call, buffers full of A5: "kept" says that all behind the result still is, also behind the buffer's end. A line that begins with "starved"
 * is called with no memory to be had. */
#include <stdbool.h>
#include <stdio.h>
#include <stdlib.h>
#include <string.h>

#include "nazkoiber.h"

#define BEHIND 64
#define BEFORE 7777

static bool starved;

void *__real_malloc(size_t size);
void *__real_realloc(void *old, size_t size);

void *__wrap_malloc(size_t size) {
    return starved ? NULL : __real_malloc(size);
}

void *__wrap_realloc(void *old, size_t size) {
    return starved ? NULL : __real_realloc(old, size);
}

struct bytes {
    uint8_t *at;
    size_t size;
};

static const char *word(void) {
    const char *next = strtok(NULL, " \n");
    if (next == NULL) {
        fprintf(stderr, "a word is missing\n");
        exit(1);
    }
    return next;
}

static unsigned long number(void) {
    return strtoul(word(), NULL, 10);
}

/* Of exactly so many bytes, so that a tool that watches memory sees what lies beyond. */
static struct bytes bytes(void) {
    const char *text = word();
    size_t size = strcmp(text, "-") == 0 ? 0 : strlen(text) / 2;
    struct bytes made = {malloc(size > 0 ? size : 1), size};
    for (size_t i = 0; i < size; i++) {
        sscanf(text + 2 * i, "%2hhx", &made.at[i]);
    }
    return made;
}

static uint8_t *lent(size_t size) {
    uint8_t *at = malloc(size + BEHIND);
    memset(at, 0xA5, size + BEHIND);
    return at;
}

static const char *kept(const uint8_t *at, size_t from, size_t size) {
    for (size_t i = from; i < size + BEHIND; i++) {
        if (at[i] != 0xA5) {
            return "spoiled";
        }
    }
    return "kept";
}

static void print_bytes(const uint8_t *at, size_t size) {
    if (size == 0) {
        printf("-");
    }
    for (size_t i = 0; i < size; i++) {
        printf("%02x", at[i]);
    }
}

static void print_written(uint8_t status, size_t size, const uint8_t *out, size_t room) {
    size_t written = status == 0 ? size : 0;
    printf("%u %zu ", status, size);
    print_bytes(out, written);
    printf(" %s\n", kept(out, written, room));
}

/* Between these two nothing but the call itself runs. */
static bool hungry;
#define CALL(call) (starved = hungry, status = (call), starved = false)

static void seal(void) {
    struct bytes text = bytes();
    unsigned long digest = number(), changes = number();
    struct bytes secret = bytes(), name = bytes();
    unsigned long drawn = number(), room = number();
    uint8_t *out = lent(room), status;
    size_t size = BEFORE;
    CALL(nazkoiber_seal(text.at, text.size, digest, changes, secret.at, secret.size, name.at, name.size, drawn, out, room, &size));
    print_written(status, size, out, room);
    free(text.at), free(secret.at), free(name.at), free(out);
}

static void pack(void) {
    struct bytes text = bytes(), part = bytes();
    unsigned long room = number();
    uint8_t *out = lent(room), status;
    size_t size = BEFORE;
    CALL(nazkoiber_pack(text.at, text.size, part.at, part.size, out, room, &size));
    print_written(status, size, out, room);
    free(text.at), free(part.at), free(out);
}

static void unpack(void) {
    struct bytes file = bytes();
    size_t place = BEFORE, size = BEFORE;
    uint8_t status;
    CALL(nazkoiber_unpack(file.at, file.size, &place, &size));
    printf("%u %zu %zu\n", status, place, size);
    free(file.at);
}

static void check(void) {
    struct bytes file = bytes();
    unsigned long digest = number();
    struct bytes secret = bytes();
    unsigned long places = number();
    uint8_t *list = lent(2 * places), status;
    size_t count = BEFORE;
    uint32_t sealed = BEFORE;
    CALL(nazkoiber_check(file.at, file.size, digest, secret.at, secret.size, (uint16_t *)list, places, &count, &sealed));
    size_t named = status == 0 ? count : 0;
    printf("%u %zu %u", status, count, sealed);
    for (size_t i = 0; i < named; i++) {
        printf(" %u", ((uint16_t *)list)[i]);
    }
    printf(" %s\n", kept(list, 2 * named, 2 * places));
    free(file.at), free(secret.at), free(list);
}

static void vouch(void) {
    struct bytes file = bytes();
    unsigned long digest = number();
    struct bytes secret = bytes();
    unsigned long block = number();
    struct bytes offered = bytes();
    uint16_t row = BEFORE;
    size_t size = BEFORE;
    uint8_t status;
    CALL(nazkoiber_vouch(file.at, file.size, digest, secret.at, secret.size, block, offered.at, offered.size, &row, &size));
    printf("%u %u %zu\n", status, row, size);
    free(file.at), free(secret.at), free(offered.at);
}

static void excerpt(void) {
    struct bytes file = bytes();
    unsigned long digest = number();
    struct bytes secret = bytes();
    unsigned long block = number(), row = number(), room = number();
    uint8_t *out = lent(room), status;
    size_t size = BEFORE;
    CALL(nazkoiber_excerpt(file.at, file.size, digest, secret.at, secret.size, block, row, out, room, &size));
    print_written(status, size, out, room);
    free(file.at), free(secret.at), free(out);
}

static void confirm(void) {
    struct bytes part = bytes();
    unsigned long digest = number();
    struct bytes secret = bytes();
    unsigned long block = number(), row = number();
    struct bytes offered = bytes(), others = bytes();
    uint8_t status;
    CALL(nazkoiber_confirm(part.at, part.size, digest, secret.at, secret.size, block, row, offered.at, offered.size, others.at, others.size));
    printf("%u\n", status);
    free(part.at), free(secret.at), free(offered.at), free(others.at);
}

static const struct {
    const char *name;
    void (*answer)(void);
} calls[] = {{"seal", seal}, {"pack", pack}, {"unpack", unpack}, {"check", check}, {"vouch", vouch}, {"excerpt", excerpt}, {"confirm", confirm}};

int main(void) {
    char *line = NULL;
    size_t room = 0;
    while (getline(&line, &room, stdin) > 0) {
        const char *name = strtok(line, " \n");
        hungry = name != NULL && strcmp(name, "starved") == 0;
        if (hungry) {
            name = word();
        }
        size_t i = 0;
        while (i < sizeof calls / sizeof *calls && (name == NULL || strcmp(name, calls[i].name) != 0)) {
            i++;
        }
        if (i == sizeof calls / sizeof *calls) {
            fprintf(stderr, "no such call\n");
            return 1;
        }
        calls[i].answer();
    }
    free(line);
    return 0;
}
