/* How far down the stack a call of the terminal reaches. The call is made on a stack of its own,
 * painted beforehand; afterwards the lowest byte that was written is looked for. */
#include <string.h>
#include <ucontext.h>
#include "det.h"

struct lent {
    uint8_t *session, *chars, *attrs, *marks, *reply;
    const uint8_t *input;
    size_t width, height, room, length;
    uint32_t key;
};

enum { OPEN, HOST, KEY };

static __typeof__(det_open) *volatile open_by;
static __typeof__(det_host) *volatile host_by;
static __typeof__(det_key) *volatile key_by;

static struct lent now;
static size_t taken, written;
static uint8_t answer;

static uint8_t stack[1 << 16];
static ucontext_t here, there;

/* Stands in for the terminal's functions, to learn what calling them takes. */
static void nothing(void) {}

static void call_open(void) {
    size_t cells = now.width * now.height;
    answer = open_by(now.width, now.height, DET_SEPTEMBER, now.chars, cells, now.attrs, cells,
                     now.marks, cells, now.session, DET_SESSION_LENGTH);
}

static void call_host(void) {
    size_t cells = now.width * now.height;
    answer = host_by(now.session, DET_SESSION_LENGTH, now.input, now.length, now.chars, cells,
                     now.attrs, cells, now.marks, cells, now.reply, now.room, &taken, &written);
}

static void call_key(void) {
    size_t cells = now.width * now.height;
    answer = key_by(now.session, DET_SESSION_LENGTH, now.key, now.chars, cells, now.attrs, cells,
                    now.marks, cells, now.reply, now.room, &taken, &written);
}

/* From the stack's top down, when calling what does nothing or, where real is 1, the terminal. The
 * answer is what was returned. */
size_t stack_reached(int call, int real, int paint, const struct lent *with, uint8_t *answered) {
    static void (*const calls[])(void) = {call_open, call_host, call_key};
    size_t low = 0;
    now = *with;
    open_by = real ? det_open : (__typeof__(det_open) *)nothing;
    host_by = real ? det_host : (__typeof__(det_host) *)nothing;
    key_by = real ? det_key : (__typeof__(det_key) *)nothing;
    memset(stack, paint, sizeof stack);
    getcontext(&there);
    there.uc_stack.ss_sp = stack;
    there.uc_stack.ss_size = sizeof stack;
    there.uc_link = &here;
    makecontext(&there, calls[call], 0);
    swapcontext(&here, &there);
    while (low < sizeof stack && stack[low] == (uint8_t)paint)
        low++;
    *answered = answer;
    return sizeof stack - low;
}
