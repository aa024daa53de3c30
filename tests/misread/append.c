// The writer of a log with little room and with long datagrams: a line for each call's answer. compiled.py has what the papers say of each.
#include "../../include/quartzmitten.h"
#include "../../tools/system.h"

static qm_byte out[80000], datagram[66000];

int main(void) {
    static const qm_u64 limits[] = {0, 127, 128, 1048576, 1048577, 18446744073709551615u};
    static const qm_size lengths[] = {0, 1, 65535, 65536};
    for (unsigned i = 0; i < sizeof limits / sizeof *limits; i++)
        for (qm_size room = 0; room < 13; room++)
            printf("%lu\n", (unsigned long)qm_log_begin(out, room, limits[i]));
    for (unsigned i = 0; i < sizeof lengths / sizeof *lengths; i++)
        for (int less = -1; less < 2; less++) {
            qm_size entry = 2 + (lengths[i] < 128 ? 1 : 3) + lengths[i];
            printf("%lu\n", (unsigned long)qm_log_append(out, 7 + entry - (less < 0 ? 0 : (qm_size)less) + (less < 0), 7, 1, 2, datagram, lengths[i]));
        }
    return 0;
}
