/* Of each pit of a counted season its last mark, and how many it has. */

#include "last.h"
#include "season.h"

int last_open(struct last *t, const char *command) {
    *t = (struct last) {.many = season_pits()};
    /* memory for none may be none */
    t->rows = calloc(t->many + 1, sizeof *t->rows);
    return t->rows ? DONE : failed(command, "the pits");
}

void last_close(struct last *t) {
    free(t->rows);
    *t = (struct last) {0};
}

int last_note(struct last *t, const struct mark *m) {
    qm_size i = season_find(m->tile, m->pit);
    if (i == t->many) return 0;
    t->rows[i].mark = *m;
    t->rows[i].marks++;
    return 1;
}
