/* Logs named by number: of FLIGHT.log they are FLIGHT-0001.log, FLIGHT-0002.log and so on. And the folder that a file stands in. */

#ifndef QM_NUMBERED_H
#define QM_NUMBERED_H

#include "qm.h"

/* The path of that number, of 0 the path itself, to be freed; null where there is no memory. */
char *numbered_path(const char *path, qm_u64 number);
/* The highest number that there is a file of, or 0. DONE, or FAILED with the reason said. */
int numbered_last(const char *command, const char *path, qm_u64 *number);

/* Asks the disk that the folder of a file has its name. DONE, or FAILED with the reason said. */
int sync_folder(const char *command, const char *path);

#endif
