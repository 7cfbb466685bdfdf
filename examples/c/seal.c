/* Seals a sheet of twelve lines, changes two of them, and asks which ones. Then it asks of the bytes of one whether they are the sealed ones. */
#include <stdio.h>
#include <stdlib.h>
#include <string.h>

#include "nazkoiber.h"

static const uint8_t secret[32] = "thirty-two bytes, kept by none.";
static const uint8_t name[8] = "bench 1";

static const char *sealed[12] = {
    "truck BIS-PZ 1\n",     "axle 1 left 412\n",  "axle 1 right 405\n", "axle 2 left 388\n",  "axle 2 right 391\n", "axle 3 left 377\n",
    "axle 3 right 380\n",   "parking 1210\n",     "pressure 8.1\n",     "slip 21\n",          "tester 7\n",         "end\n",
};

static size_t join(const char *const lines[12], uint8_t *text) {
    size_t size = 0;
    for (int i = 0; i < 12; i++) {
        memcpy(text + size, lines[i], strlen(lines[i]));
        size += strlen(lines[i]);
    }
    return size;
}

static void must(uint8_t status, const char *call) {
    if (status != 0) {
        printf("%s: status %u\n", call, status);
        exit(1);
    }
}

static void check(const uint8_t *file, size_t size) {
    uint16_t list[NAZKOIBER_LIST_ROOM];
    size_t count = 0;
    uint32_t number = 0;
    uint8_t status = nazkoiber_check(file, size, NAZKOIBER_SHA256, secret, 32, list, NAZKOIBER_LIST_ROOM, &count, &number);
    if (status != 0) {
        printf("check: status %u, %zu suspects\n", status, count);
        return;
    }
    printf("seal %u: changed", number);
    for (size_t i = 0; i < count; i++) {
        printf(" %u", list[i]);
    }
    printf("\n");
}

int main(void) {
    static uint8_t text[1024], file[NAZKOIBER_FILE_ROOM], changed[NAZKOIBER_FILE_ROOM], excerpt[NAZKOIBER_EXCERPT_ROOM];
    size_t size, place, part_size, changed_size, excerpt_size;
    uint16_t row;

    /* Number 41 of this key: the caller has written down that 42 is the next one. */
    must(nazkoiber_seal(text, join(sealed, text), NAZKOIBER_SHA256, 2, secret, 32, name, 8, 41, file, sizeof file, &size), "seal");
    printf("file %zu bytes\n", size);
    check(file, size);

    const char *lines[12];
    memcpy(lines, sealed, sizeof lines);
    lines[3] = "axle 2 left 488\n";
    lines[7] = "parking 1910\n";
    must(nazkoiber_unpack(file, size, &place, &part_size), "unpack");
    must(nazkoiber_pack(text, join(lines, text), file + place, part_size, changed, sizeof changed, &changed_size), "pack");
    check(changed, changed_size);

    /* The sealed bytes of block 4, and then those that it has now. */
    const uint8_t *old = (const uint8_t *)sealed[3], *new = (const uint8_t *)lines[3];
    size_t old_size = strlen(sealed[3]), new_size = strlen(lines[3]);
    must(nazkoiber_vouch(changed, changed_size, NAZKOIBER_SHA256, secret, 32, 4, old, old_size, &row, &excerpt_size), "vouch");
    printf("row %u vouches for the old block 4, excerpt %zu bytes\n", row, excerpt_size);
    must(nazkoiber_excerpt(changed, changed_size, NAZKOIBER_SHA256, secret, 32, 4, row, excerpt, sizeof excerpt, &excerpt_size), "excerpt");
    uint8_t yes = nazkoiber_confirm(file + place, part_size, NAZKOIBER_SHA256, secret, 32, 4, row, old, old_size, excerpt, excerpt_size);
    uint8_t no = nazkoiber_confirm(file + place, part_size, NAZKOIBER_SHA256, secret, 32, 4, row, new, new_size, excerpt, excerpt_size);
    printf("confirm: status %u for the old bytes, %u for the new ones\n", yes, no);

    lines[0] = "truck BIS-PZ 2\n";
    lines[10] = "tester 8\n";
    must(nazkoiber_pack(text, join(lines, text), file + place, part_size, changed, sizeof changed, &changed_size), "pack");
    check(changed, changed_size);
    return 0;
}
