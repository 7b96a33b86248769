/* det.h: a form terminal for Telnet's Data Entry Terminal option (option 20), with an X.3 PAD
 * (option 30) for the screens before the form.
 *
 * A host paints a form on a screen of M columns by N lines, protects its labels, and reads back
 * what an operator types. On log-in and menu screens, where no form is, it can have typed text
 * edited here and sent a line at a time. The library is the terminal: it takes the host's bytes
 * and the operator's keys, changes the screen, and writes the bytes that are to go back. It opens
 * no connection, draws nothing, allocates nothing and keeps nothing from one call to the next: all
 * that a terminal is lies in the caller's memory. Calls on memory that is apart may run at the same
 * time.
 *
 * For x86-64 Linux. 'tools/staticlib det_abi' makes target/staticlib/libdet_abi.a; then
 *
 *     cc -Iinclude program.c target/staticlib/libdet_abi.a
 *
 * builds a program; examples/form.c is one.
 *
 *
 * Memory
 *
 * What a call needs is lent by its caller for that call, as a pointer and a length:
 *
 *   chars    M * N bytes: the characters of the screen, each 32 to 126. Column x of line y, both
 *            counted from 0, is byte y * M + x.
 *   attrs    M * N bytes: the attributes of those cells, in the same order (DET_PROTECTION).
 *   marks    M * N bytes: 1 for each of those cells that was touched, else 0 (Marks, below).
 *   session  DET_SESSION_LENGTH bytes: everything else about the terminal (DET_AT_...). Bytes of
 *            another length or of another version of the library are no session.
 *   input    bytes from the host, any number of them.
 *   reply    at least DET_REPLY_ROOM(M, N) bytes, for the bytes that are to go to the host. They
 *            are written from its start on; the bytes after them stay as they were.
 *   taken, written
 *            places for two counts, which every call sets: how many bytes of the input, or keys,
 *            were taken, and how many bytes of the reply were written.
 *
 * Between calls the caller keeps chars, attrs, marks and session. It may copy, store and read them;
 * what it changes in them is checked by the next call.
 *
 * Every pointer must be valid for its length, and not null even where the length is 0; taken and
 * written must point to a size_t each. No two things given to one call may overlap. That is all
 * that is asked: whatever the lengths, the contents and the numbers are, the answer is stated
 * below.
 *
 *
 * Answers
 *
 * Each function returns DET_DONE or the number of a refusal (DET_SIZE and so on). Where more than
 * one refusal holds, the first in this order is returned:
 *
 *   255, 1, 12, 2, 3, 4, 11, 5, 9, 8, 6, 7, 10
 *
 * A refused call changes nothing: not the session, not one byte of a buffer; it sets both counts
 * to 0. (det_open, which makes a session, says below what it leaves.)
 *
 *
 * Option 30
 *
 * The host turns it on and off and sets its parameters. A program that embeds the terminal does
 * nothing for it but hand on each key by its ASCII code, the control characters too.
 *
 * While option 30 is on and option 20 is off, the keys 0 to 127 are text and nothing else: 13 is a
 * CR and sends no form, 127 is a DEL and deletes nothing on the screen, and whether the cell at the
 * cursor is guarded, or of a class, does not matter. They go to the edit line in the session, which
 * holds DET_LINE_MOST of them. The parameters say which of these a key is:
 *
 *   an edit key        takes a character, a word or all of it from the line, or writes the line on
 *                      the screen
 *   a forwarding key   sends the line and itself by way of reply, each CR as two bytes; the line
 *                      is empty then
 *   any other          waits in the line; DET_LINE_FULL where the line is full
 *
 * With echo on, what is typed is written on the screen as text from the host is: at the cursor,
 * which goes on, and never on a guarded cell. Keys from 128 on are as ever: function keys want
 * option 20 on. From the host, an LF right after a CR is passed over, unless parameter 13 has its
 * bit 1.
 *
 * While both options are on the keys are a form's, and the line stays as it is. DONT 30 empties it,
 * unsent.
 *
 * DET_REPLY_ROOM(M, N) bytes for the reply are enough here too: a full line fits from DET_PAD_CELLS
 * cells up. On a smaller screen the terminal answers DO 30 with WONT 30.
 *
 *
 * Editions
 *
 * Option 20 has two editions, RFC 731 and RFC 732, in which some commands have different codes.
 * det_open is told which of them the host follows, DET_JUNE or DET_SEPTEMBER. The session keeps it
 * (DET_AT_EDITION), and no call changes it.
 *
 * Where a command has a number in this text, it is September's code. June's codes are, for these:
 *
 *   1 to 26    the same
 *   27         none: there is no TRANSMIT MODIFIED
 *   28 to 41   one lower each, so ERASE SCREEN (29) has 28. Those that the terminal sends too: DATA
 *              TRANSMIT (28), FIELD SEPARATOR (39), FN (40) and ERROR (41) have 27, 38, 39 and 40
 *
 * An ERROR names the command by the code that came, in either edition.
 *
 * In June's edition the first byte of the terminal's own format map is DET_OWN_FORMAT_0_JUNE: its
 * bit 6, that of 27, is off and governs nothing. Marks are set and cleared as in September's, and
 * never asked for.
 *
 * All else is the same in both, also where RFC 731 has it otherwise. FORMAT DATA takes four
 * parameters: a host that sends three, as RFC 731 has it, draws ERROR 10. ERROR's numbers are
 * September's: from 9 on they are one higher than in RFC 731.
 *
 *
 * Facilities
 *
 * A host may use most commands of option 20 only where both ends have said that they can. With the
 * option on, it sends its facility maps by the commands 1 (editing), 2 (erasing), 3 (transmitting)
 * and 4 (formatting, two bytes). The terminal answers each with its own map (DET_OWN_...) and keeps
 * the one that came (DET_AT_MAPS), in place of any before it. A bit that is set in both is agreed.
 * DONT 20 while the option is on ends all agreement: the host then sends its maps anew.
 *
 * Until its bit is agreed, a command draws ERROR 1, the bytes 255 250 20 41 code 1 255 240 (40 and
 * not 41 in June's edition), and does nothing. Bits are numbered from the right, from 0:
 *
 *   editing        6: commands 6 and 7; 5: 8 to 11; 4: 17; 3: 13 and 14; 2: 15 and 16; 1: 19
 *   erasing        4: 31; 3: 30; 2: 32; 1: 33; 0: 34
 *   transmitting   4: 22; 3: 23; 2: 24; 1: 25; 0: 26
 *   formatting     first byte, 6: 27; 4: 37; second byte, 6: 38; 5: 21 and 35
 *
 * The commands 1 to 5, 12, 20, 29, 36 and 41 need no bit, and no key needs one. A program that
 * embeds the terminal does nothing for this; it can tell what is agreed, as
 *
 *   session[DET_AT_MAPS + DET_MAP_EDIT] & DET_OWN_EDIT
 *
 *
 * Marks
 *
 * A host that knows what its form holds need not have all of it sent back. Its command 27, TRANSMIT
 * MODIFIED, draws only the unprotected fields that have a marked cell, each whole and after its
 * start; where there is none, it draws nothing.
 *
 * What is typed on the screen marks its cell. The shifts, which are the commands 13 to 16 and the
 * delete key, mark every cell that they write. The cell's character may be the same as before.
 * Nothing else marks a cell: no text from the host, no echo of the edit line, no REPEAT (37), no
 * erasing, no formatting.
 *
 * det_open and the commands 27, 29 and 35 clear all marks. Nothing else clears one, the send key
 * neither. A program that embeds the terminal does nothing for them but lend them.
 */
#ifndef DET_H
#define DET_H

#include <stddef.h>
#include <stdint.h>

#ifdef __cplusplus
extern "C" {
#endif

/* The largest screen, and the lengths of a session and of the shortest reply buffer for a screen of
 * m columns by n lines: the longest reply that one byte or key can draw fits in it. A program does
 * well to keep m * n at 7,281 or less: then that length fits in 16 bits. */
#define DET_WIDTH_MOST 132
#define DET_HEIGHT_MOST 64
#define DET_SESSION_LENGTH 212
#define DET_REPLY_ROOM(m, n) ((size_t)9 * (m) * (n))

/* The first byte of every session: how the others are laid out. */
#define DET_SESSION_VERSION 4

/* The editions of option 20. */
enum {
    DET_JUNE = 731,     /* RFC 731, of June */
    DET_SEPTEMBER = 732 /* RFC 732, of September */
};

/* Option 30: the fewest cells that it is accepted with, the most bytes that the edit line holds,
 * and how many parameters there are. */
#define DET_PAD_CELLS 37
#define DET_LINE_MOST 128
#define DET_PARAMETER_COUNT 28

/* What a call answers. */
enum {
    DET_DONE = 0,        /* the call was done */
    DET_SIZE = 1,        /* M is not 1 to 132, or N is not 1 to 64 */
    DET_LENGTH = 2,      /* chars, attrs or marks is not M * N bytes long */
    DET_CHARACTER = 3,   /* a byte of chars is not 32 to 126; never of det_open */
    DET_RANGE = 4,       /* in the session, the cursor is off the screen, the count of held bytes is
                            above 6, option 30 is on with fewer than DET_PAD_CELLS cells, the edit
                            line is longer than DET_LINE_MOST or has a byte above 127, or one of
                            the parameters, DET_AT_COPY's too, has a value that it cannot have;
                            never of det_open */
    DET_ROOM = 5,        /* reply is shorter than DET_REPLY_ROOM(M, N); never of det_open */
    DET_GUARDED = 6,     /* a character or the delete key, and the cell is guarded */
    DET_CLASS = 7,       /* a character that the cell's class does not take */
    DET_OFF = 8,         /* the send key or a function key, and option 20 is off */
    DET_NO_MEANING = 9,  /* a key that means nothing */
    DET_LINE_FULL = 10,  /* a key that would wait in the edit line, and the line is full */
    DET_MARK = 11,       /* a byte of marks is above 1; never of det_open */
    DET_EDITION = 12,    /* edition is neither DET_JUNE nor DET_SEPTEMBER; of det_open alone */
    DET_NO_SESSION = 255 /* session is not DET_SESSION_LENGTH bytes long, or its bytes are no
                            session (below) */
};

/* The session, byte by byte.
 *
 * Bytes are no session where DET_AT_VERSION is not DET_SESSION_VERSION; DET_AT_ON, DET_AT_PAD_ON,
 * DET_AT_SUPPRESSED, DET_AT_CR or DET_AT_EDITION is above 1; DET_AT_READER is above
 * DET_READER_SUB_IAC, or DET_AT_OPTION is not 0 while it is below DET_READER_SUB; DET_AT_STAGE is
 * above DET_STAGE_VALUE, DET_AT_CODE is not 0 while it is DET_STAGE_CODE, or DET_AT_WAITING is not
 * 0 while it is below DET_STAGE_VALUE. */
enum {
    DET_AT_VERSION = 0,      /* DET_SESSION_VERSION */
    DET_AT_WIDTH = 1,        /* M */
    DET_AT_HEIGHT = 2,       /* N */
    DET_AT_X = 3,            /* the cursor's column, from 0 */
    DET_AT_Y = 4,            /* the cursor's line, from 0 */
    DET_AT_ON = 5,           /* 1 while option 20 is on */
    DET_AT_PAD_ON = 6,       /* 1 while option 30 is on */
    DET_AT_SUPPRESSED = 7,   /* 1 while protection is suppressed */
    DET_AT_READER = 8,       /* where the reader of Telnet bytes stands: DET_READER_... */
    DET_AT_OPTION = 9,       /* the option of the subnegotiation that is being read, else 0 */
    DET_AT_HELD_COUNT = 10,  /* how many of the next six; it stops at 6, though more may come */
    DET_AT_HELD = 11,        /* six bytes: what that subnegotiation has had after its option byte */
    DET_AT_CR = 17,          /* 1 where the host's last byte outside commands was a CR */
    DET_AT_PARAMETERS = 18,  /* DET_PARAMETER_COUNT values of option 30: DET_AT_PARAMETER */
    DET_AT_LINE_LENGTH = 46, /* how many bytes wait in the edit line */
    DET_AT_LINE = 47,        /* DET_LINE_MOST bytes: those that wait; the others mean nothing */
    DET_AT_STAGE = 175,      /* what comes next in a message of option 30: DET_STAGE_... */
    DET_AT_CODE = 176,       /* the message's code, 0 before it */
    DET_AT_WAITING = 177,    /* the parameter that waits for its value, else 0 */
    DET_AT_COPY = 178,       /* DET_PARAMETER_COUNT values, as the message will have set them */
    DET_AT_MAPS = 206,       /* DET_MAP_COUNT facility maps received, of any value: DET_MAP_... */
    DET_AT_EDITION = 211     /* 0 in June's edition, 1 in September's */
};

/* Where the value of parameter p stands, which is 0 to 22 or 128 to 132. The last four are in force
 * while 128 has the value 1. */
#define DET_AT_PARAMETER(p) (DET_AT_PARAMETERS + ((p) < 128 ? (p) : (p) - 105))

/* The facility maps, in their order from DET_AT_MAPS on: each is 0 until the host has sent it. */
#define DET_MAP_COUNT 5
enum {
    DET_MAP_EDIT = 0,
    DET_MAP_ERASE = 1,
    DET_MAP_TRANSMIT = 2,
    DET_MAP_FORMAT_0 = 3, /* the first byte of the format map */
    DET_MAP_FORMAT_1 = 4  /* the second */
};

/* The terminal's own, of which one depends on the edition. */
enum {
    DET_OWN_EDIT = 126,
    DET_OWN_ERASE = 31,
    DET_OWN_TRANSMIT = 63,
    DET_OWN_FORMAT_0 = 208,      /* in September's */
    DET_OWN_FORMAT_0_JUNE = 144, /* in June's */
    DET_OWN_FORMAT_1 = 121
};

/* Where the reader stands. */
enum {
    DET_READER_DATA = 0,   /* outside any command */
    DET_READER_IAC = 1,    /* after IAC */
    DET_READER_WILL = 2,   /* after IAC WILL, and so on: the option byte comes next */
    DET_READER_WONT = 3,
    DET_READER_DO = 4,
    DET_READER_DONT = 5,
    DET_READER_SB = 6,     /* after IAC SB: the option byte comes next */
    DET_READER_SB_IAC = 7, /* after IAC SB IAC */
    DET_READER_SUB = 8,    /* in a subnegotiation, after its option byte */
    DET_READER_SUB_IAC = 9 /* there, after IAC */
};

/* What comes next in a message of option 30. */
enum {
    DET_STAGE_CODE = 0,      /* its code; so also outside a message */
    DET_STAGE_PARAMETER = 1, /* a parameter, or the end */
    DET_STAGE_VALUE = 2      /* the value of the parameter that waits */
};

/* The two bits of an attribute byte that say what may be typed into the cell. A protected cell is
 * guarded unless protection is suppressed: no key, no echo and no text from the host changes a
 * guarded cell's character, and of the host's commands only ERASE SCREEN (29) does. */
#define DET_PROTECTION 0x18
enum {
    DET_ANY = 0x00,        /* every character */
    DET_PROTECTED = 0x08,  /* none */
    DET_ALPHABETIC = 0x10, /* A to Z, a to z and space */
    DET_NUMERIC = 0x18     /* 0 to 9, + - . and space */
};

/* The keys. Besides these, 32 to 126 are the characters that are typed; no other number means
 * anything, however large. (While the edit line takes the keys, 0 to 127 are text, all of them.) */
enum {
    DET_KEY_BACK = 8,    /* to the previous cell that is not guarded */
    DET_KEY_TAB = 9,     /* to the start of the next unprotected field; after the last, the first */
    DET_KEY_SEND = 13,   /* sends all unprotected fields */
    DET_KEY_DELETE = 127 /* deletes the character at the cursor, within its field and line */
};
#define DET_KEY_FUNCTION(k) (127 + (k)) /* sends the number k, which is 1 to 16 */

/* Opens a terminal of width columns by height lines, with the codes of that edition: spaces in
 * chars, zeros in attrs and marks and, whatever was in its place, a new session: cursor at column 0
 * of line 0, both options off, protection in effect, no facility agreed, nothing half read, nothing
 * in the edit line, the parameters at their start.
 *
 * Refused with 1, 12 or 2 it leaves chars, attrs and marks alone and writes such a session of 0 by
 * 0, of September's edition, which the other two calls then refuse with 1. With 255, where the
 * place for the session has another length, it writes nothing at all. */
uint8_t det_open(size_t width, size_t height, size_t edition,
                 uint8_t *chars, size_t chars_len,
                 uint8_t *attrs, size_t attrs_len,
                 uint8_t *marks, size_t marks_len,
                 uint8_t *session, size_t session_len);

/* Takes bytes from the host, from the front of the input, as long as there are some and the reply
 * has DET_REPLY_ROOM(M, N) bytes left. It changes the session, chars, attrs and marks as they say,
 * and writes what they draw into reply. Commands may be cut anywhere between two calls.
 *
 * *taken may be less than input_len: send the *written bytes of the reply to the host, then call
 * again with the rest of the input. A call that is done takes at least one byte if it is given one,
 * so this comes to an end. Refusals: 255, 1, 2, 3, 4, 11, 5. */
uint8_t det_host(uint8_t *session, size_t session_len,
                 const uint8_t *input, size_t input_len,
                 uint8_t *chars, size_t chars_len,
                 uint8_t *attrs, size_t attrs_len,
                 uint8_t *marks, size_t marks_len,
                 uint8_t *reply, size_t reply_len,
                 size_t *taken, size_t *written);

/* Takes one key of the operator; *taken is then 1. It changes the session, chars and marks as the
 * key says, never attrs, and writes what is to be sent into reply. What is half read from the host
 * stays so. Refusals: any of the numbers but 12; for a key that the edit line takes, 10 alone of
 * those after 5. */
uint8_t det_key(uint8_t *session, size_t session_len,
                uint32_t key,
                uint8_t *chars, size_t chars_len,
                const uint8_t *attrs, size_t attrs_len,
                uint8_t *marks, size_t marks_len,
                uint8_t *reply, size_t reply_len,
                size_t *taken, size_t *written);

#ifdef __cplusplus
}
#endif

#endif
