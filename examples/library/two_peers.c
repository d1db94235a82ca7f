/* Two peers in one program in C. Each line of the input is a peer, 0 or 1, and a step of it, or `give`: then each peer receives the
 * frames of what the other issued since, and settles. What is written is the code of each call, and the answer where it is 0. At
 * the end each peer is closed, comes back by its journal, and shows its text. README.md, "In a browser, and from C", says how it
 * is built. */
#include "editor.h"

#include <stdio.h>
#include <stdlib.h>
#include <string.h>

#define FRAME_SIZE 280

typedef struct {
    uint8_t bytes[FRAME_SIZE];
    size_t size;
} Frame;

/* A peer, and the frames that wait for it. */
typedef struct {
    editor_slot slot;
    Frame *waiting;
    size_t count, room;
} Side;

static void *more(void *old, size_t size) {
    void *got = realloc(old, size);
    if (!got) exit(7);
    return got;
}

/* Writes the answer, with a line end where it has none. */
static void put_answer(Side *side) {
    uint8_t few[1024], *bytes = few;
    size_t size = editor_answer(&side->slot, few, sizeof few);
    if (size > sizeof few) {
        bytes = more(NULL, size);
        editor_answer(&side->slot, bytes, size);
    }
    fwrite(bytes, 1, size, stdout);
    if (!size || bytes[size - 1] != '\n') putchar('\n');
    if (bytes != few) free(bytes);
}

static void put_told(Side *side, uint32_t code) {
    printf("%u ", code);
    if (code == EDITOR_DONE) put_answer(side);
    else putchar('\n');
}

/* The frame of what a step issued waits for the other peer. */
static void pass_on(Side *from, Side *to) {
    Frame frame;
    frame.size = editor_frame(&from->slot, frame.bytes, FRAME_SIZE);
    if (!frame.size) return;
    if (to->count == to->room) to->waiting = more(to->waiting, (to->room = 2 * to->room + 16) * sizeof frame);
    to->waiting[to->count++] = frame;
}

static int is_quiet(Side *side) {
    uint8_t answer[8];
    return editor_answer(&side->slot, answer, sizeof answer) == 6 && !memcmp(answer, "quiet\n", 6);
}

static void receive_all(Side *side) {
    for (size_t i = 0; i < side->count; i++) {
        put_told(side, editor_receive(&side->slot, side->waiting[i].bytes, side->waiting[i].size));
        uint32_t code;
        do {
            code = editor_step(&side->slot, (const uint8_t *)"settle", 6);
            put_told(side, code);
        } while (code == EDITOR_DONE && !is_quiet(side));
    }
    side->count = 0;
}

static void make_line(Side sides[2], const char *line, size_t size) {
    Side *side = &sides[line[0] == '1'], *other = &sides[line[0] != '1'];
    if (size < 2) return;
    uint32_t code = editor_step(&side->slot, (const uint8_t *)line + 2, size - 2);
    put_told(side, code);
    if (code == EDITOR_DONE && strncmp(line + 2, "look", 4)) pass_on(side, other);
}

/* Closes a peer, and opens it again by the frames of its journal. */
static void come_back(Side *side, uint16_t site) {
    size_t size = 0, room = FRAME_SIZE, frame_size;
    uint8_t *journal = more(NULL, room);
    for (unsigned place = 0;; place++) {
        char look[24];
        int look_size = snprintf(look, sizeof look, "look %u", place);
        if (editor_step(&side->slot, (const uint8_t *)look, (size_t)look_size) != EDITOR_DONE) exit(7);
        if (room < size + FRAME_SIZE) journal = more(journal, room = 2 * room + FRAME_SIZE);
        frame_size = editor_frame(&side->slot, journal + size, FRAME_SIZE);
        if (!frame_size) break;
        size += frame_size;
    }
    editor_close(&side->slot);
    if (editor_restore(&side->slot, site, journal, size) != EDITOR_DONE) exit(7);
    free(journal);
}

/* A caret behind the last element that shows, kept by its name, stands behind as many elements as there are. */
static int is_last_found(Side *side) {
    uint8_t name[24], shown[11] = {0}, count[11] = {0};
    if (editor_count(&side->slot) != EDITOR_DONE) exit(7);
    editor_answer(&side->slot, shown, sizeof shown - 1);
    uint32_t last = (uint32_t)strtoul((char *)shown, NULL, 10) - 1;
    if (editor_name_at(&side->slot, last) != EDITOR_DONE) exit(7);
    size_t name_size = editor_answer(&side->slot, name, sizeof name);
    if (!name_size) return !strcmp((char *)shown, "0");
    if (editor_shown_up_to(&side->slot, name, name_size) != EDITOR_DONE) exit(7);
    editor_answer(&side->slot, count, sizeof count - 1);
    return !strcmp((char *)count, (char *)shown);
}

int main(void) {
    Side sides[2] = {0};
    for (uint16_t site = 0; site < 2; site++)
        if (editor_open(&sides[site].slot, site) != EDITOR_DONE) return 7;
    for (char line[4096]; fgets(line, sizeof line, stdin);) {
        if (strcmp(line, "give\n")) {
            make_line(sides, line, strcspn(line, "\n"));
            continue;
        }
        receive_all(&sides[0]);
        receive_all(&sides[1]);
    }
    for (uint16_t site = 0; site < 2; site++) {
        come_back(&sides[site], site);
        if (!is_last_found(&sides[site])) return 8;
        put_told(&sides[site], editor_show(&sides[site].slot));
        editor_close(&sides[site].slot);
        free(sides[site].waiting);
    }
    return 0;
}
