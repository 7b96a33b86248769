/* libvterm, for the row on text: a screen that takes a buffer, and tells nobody. */
#include <stddef.h>
#include <vterm.h>

/* Null where there is no memory. */
VTerm *peer_vterm_new(int lines, int columns) {
    VTerm *vterm = vterm_new(lines, columns);
    if (vterm)
        vterm_screen_reset(vterm_obtain_screen(vterm), 1);
    return vterm;
}

void peer_vterm_take(VTerm *vterm, const char *input, size_t length) {
    vterm_input_write(vterm, input, length);
}

/* The first byte of the character in a cell, 0 where there is none. */
char peer_vterm_cell(VTerm *vterm, int line, int column) {
    VTermScreenCell cell;
    VTermPos place = {.row = line, .col = column};
    return vterm_screen_get_cell(vterm_obtain_screen(vterm), place, &cell) ? (char)cell.chars[0] : 0;
}

void peer_vterm_free(VTerm *vterm) {
    vterm_free(vterm);
}
