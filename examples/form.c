/* A form in C. The host paints
 *
 *     WT 70 #4
 *     UNIT mg
 *
 * with the weight "70 " and the unit "mg " open and all else protected; before that it sends its
 * facility maps. The operator deletes a character of the weight, and sends the form. Then the host
 * asks for the field that was touched alone. That host follows September's edition. Last, a
 * function key is pressed for it, and one for a host that follows June's. Status 1 where a call
 * answers something else than it should. */
#include <stdio.h>
#include <stdlib.h>

#include "det.h"

#define WIDTH 8
#define HEIGHT 2
#define CELLS (WIDTH * HEIGHT)

static uint8_t chars[CELLS];
static uint8_t attrs[CELLS];
static uint8_t marks[CELLS];
static uint8_t session[DET_SESSION_LENGTH];
static uint8_t reply[DET_REPLY_ROOM(WIDTH, HEIGHT)];

static const uint8_t turn_on[] = {
    255, 253, 20                              /* DO 20 */
};

static const uint8_t negotiate[] = {
    255, 250, 20, 1, 0x7e, 255, 240,          /* what the host can do: EDIT FACILITIES */
    255, 250, 20, 2, 0x1f, 255, 240,          /* ERASE FACILITIES */
    255, 250, 20, 3, 0x3f, 255, 240,          /* TRANSMIT FACILITIES */
    255, 250, 20, 4, 0xd0, 0x79, 255, 240     /* FORMAT FACILITIES, two bytes */
};

static const uint8_t paint[] = {
    'W', 'T', ' ', '7', '0', ' ', '#', '4',             /* text */
    'U', 'N', 'I', 'T', ' ', 'm', 'g', ' ',
    255, 250, 20, 5, 0, 0, 255, 240,                    /* MOVE CURSOR to column 0, line 0 */
    255, 250, 20, 36, DET_PROTECTED, 0, 0, 3, 255, 240, /* FORMAT DATA: 3 cells */
    255, 250, 20, 5, 6, 0, 255, 240,                    /* MOVE CURSOR to column 6, line 0 */
    255, 250, 20, 36, DET_PROTECTED, 0, 0, 7, 255, 240, /* FORMAT DATA: 7 cells */
    255, 250, 20, 5, 3, 0, 255, 240                     /* MOVE CURSOR to column 3, line 0 */
};

static const uint8_t ask_for_touched[] = {
    255, 250, 20, 27, 255, 240                          /* TRANSMIT MODIFIED */
};

static void expect(const char *what, size_t expected, size_t answer)
{
    if (answer != expected) {
        fprintf(stderr, "form: %s: %zu, expected %zu\n", what, answer, expected);
        exit(1);
    }
}

static void print_screen(const char *title)
{
    printf("%s\n", title);
    for (int y = 0; y < HEIGHT; y++)
        printf("|%.*s|\n", WIDTH, (const char *)chars + y * WIDTH);
}

static void print_reply(size_t written)
{
    if (written == 0)
        return;
    printf("the host reads");
    for (size_t i = 0; i < written; i++)
        printf(" %02x", reply[i]);
    printf("\n");
}

/* What both ends can do. */
static void print_agreed(void)
{
    static const uint8_t own[DET_MAP_COUNT] = {
        DET_OWN_EDIT, DET_OWN_ERASE, DET_OWN_TRANSMIT, DET_OWN_FORMAT_0, DET_OWN_FORMAT_1
    };
    printf("agreed");
    for (int i = 0; i < DET_MAP_COUNT; i++)
        printf(" %02x", (unsigned)(session[DET_AT_MAPS + i] & own[i]));
    printf("\n");
}

static uint8_t open_with(size_t edition)
{
    return det_open(WIDTH, HEIGHT, edition, chars, sizeof chars, attrs, sizeof attrs,
                    marks, sizeof marks, session, sizeof session);
}

/* Hands on all of the input: a call leaves the rest where the reply has no more room. */
static void host(const uint8_t *input, size_t length)
{
    while (length > 0) {
        size_t taken, written;
        expect("det_host", DET_DONE,
               det_host(session, sizeof session, input, length, chars, sizeof chars,
                        attrs, sizeof attrs, marks, sizeof marks, reply, sizeof reply,
                        &taken, &written));
        print_reply(written);
        input += taken;
        length -= taken;
    }
}

static void key(uint32_t code)
{
    size_t taken, written;
    expect("det_key", DET_DONE,
           det_key(session, sizeof session, code, chars, sizeof chars,
                   attrs, sizeof attrs, marks, sizeof marks, reply, sizeof reply,
                   &taken, &written));
    expect("keys taken", 1, taken);
    print_reply(written);
}

static void september(void)
{
    expect("det_open", DET_DONE, open_with(DET_SEPTEMBER));
    host(turn_on, sizeof turn_on);
    host(negotiate, sizeof negotiate);
    print_agreed();
    host(paint, sizeof paint);
    print_screen("the form as the host painted it");
    key(DET_KEY_DELETE);
    print_screen("after the delete key in the weight");
    printf("the send key\n");
    key(DET_KEY_SEND);
    printf("asked for what was touched\n");
    host(ask_for_touched, sizeof ask_for_touched);
    printf("function key 1\n");
    key(DET_KEY_FUNCTION(1));
}

static void june(void)
{
    expect("det_open", DET_DONE, open_with(DET_JUNE));
    printf("a host that follows June's edition\n");
    host(turn_on, sizeof turn_on);
    printf("function key 1\n");
    key(DET_KEY_FUNCTION(1));
}

/* Refused, it leaves a session of 0 by 0 and September's edition. */
static void no_edition(void)
{
    expect("det_open with 733", DET_EDITION, open_with(733));
    expect("columns then", 0, session[DET_AT_WIDTH]);
    expect("edition then", 1, session[DET_AT_EDITION]);
}

int main(void)
{
    september();
    june();
    no_edition();
    expect("errors in writing this", 0, (size_t)(fflush(stdout) != 0));
    return 0;
}
