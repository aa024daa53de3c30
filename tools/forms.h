/* The forms in which pits are printed: a line, a row of a table, a feature of a map. */

#ifndef QM_FORMS_H
#define QM_FORMS_H

#include "marks.h"

/* What stands before the pits, one pit, and what stands behind them. `marks` says how many a pit has; 0 where one mark alone is printed, which does not say it. */
struct form {
    void (*begin)(void);
    void (*pit)(const struct mark *m, qm_u64 marks, const char *log);
    void (*end)(void);
};

extern const struct form as_lines, as_table, as_map;

#endif
