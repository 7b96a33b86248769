/* libtsm, for the rows on text: a screen that takes a buffer; what it would answer goes nowhere. */
#include <stdlib.h>
#include <libtsm.h>

struct peer {
    struct tsm_screen *screen;
    struct tsm_vte *vte;
};

static void answer(struct tsm_vte *vte, const char *bytes, size_t length, void *user) {
    (void)vte, (void)bytes, (void)length, (void)user;
}

void peer_tsm_free(struct peer *peer) {
    tsm_vte_unref(peer->vte);
    tsm_screen_unref(peer->screen);
    free(peer);
}

/* Null where there is no memory. */
struct peer *peer_tsm_new(unsigned lines, unsigned columns) {
    struct peer *peer = calloc(1, sizeof *peer);
    if (!peer)
        return NULL;
    if (tsm_screen_new(&peer->screen, NULL, NULL) ||
        tsm_screen_resize(peer->screen, columns, lines) ||
        tsm_vte_new(&peer->vte, peer->screen, answer, NULL, NULL, NULL)) {
        peer_tsm_free(peer);
        return NULL;
    }
    return peer;
}

void peer_tsm_take(struct peer *peer, const char *input, size_t length) {
    tsm_vte_input(peer->vte, input, length);
}

struct wanted {
    unsigned line, column;
    unsigned char found;
};

static int draw(struct tsm_screen *screen, uint64_t id, const uint32_t *characters, size_t length,
                unsigned width, unsigned column, unsigned line, const struct tsm_screen_attr *attr,
                tsm_age_t age, void *user) {
    struct wanted *wanted = user;
    (void)screen, (void)id, (void)width, (void)attr, (void)age;
    if (length && line == wanted->line && column == wanted->column)
        wanted->found = (unsigned char)characters[0];
    return 0;
}

/* The first byte of the character in a cell, 0 where there is none. */
unsigned char peer_tsm_cell(struct peer *peer, unsigned line, unsigned column) {
    struct wanted wanted = {.line = line, .column = column};
    tsm_screen_draw(peer->screen, draw, &wanted);
    return wanted.found;
}
