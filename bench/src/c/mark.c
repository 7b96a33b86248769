/* Marks for callgrind, which knows them by their names: what a measured function runs between the
 * two is one count. */

void count_from_here(void) {
    __asm__ volatile("");
}

void count_to_here(void) {
    __asm__ volatile("");
}
