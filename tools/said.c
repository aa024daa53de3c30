/* What is said of what did not go well: by the system, of the output, of a log. */

#include "qm.h"

int failed(const char *command, const char *path) {
    fprintf(stderr, "qm %s: %s: %s\n", command, path, strerror(*__errno_location()));
    return FAILED;
}

int printed(const char *command) {
    if (fflush(stdout) == 0 && !ferror(stdout)) return DONE;
    return failed(command, "standard output");
}

/* docs/REFUSALS.md has every number. */
const char *meaning(qm_u32 number) {
    switch (number) {
    case QM_TOO_FEW_BYTES: return "too short to be LCM's: cut on its way, or another program's";
    case QM_OTHER_MAGIC: return "not LCM's: a stranger's gear on the same port, harmless";
    case QM_DATAGRAM_TOO_LONG: return "over 65,535 bytes: no datagram is that long";
    case QM_NAME: return "a channel's name that is empty, too long, not UTF-8 or has a control character";
    case QM_FRAGMENT_NUMBER: return "a fragment's number or count over the limit: the sender cuts into too many";
    case QM_PAYLOAD_TOO_LONG: return "a payload over the limit: smaller tiles, or a log of a larger limit";
    case QM_FORM: return "a fragment whose offset, length and payload size do not fit: a faulty or hostile sender";
    case QM_DISAGREES: return "disagrees with the open message of its key: two senders share a number, or one restarted";
    case QM_EDITION: return "not a log, or one of an edition that this program does not know";
    case QM_NOT_SHORTEST: return "a number is not in its shortest form: damaged on disk";
    case QM_KEPT_TOO_LONG: return "an entry's datagram is over 65,535 bytes: damaged on disk";
    case QM_LOG_CUT: return "empty, or it ends inside an entry: the writing was cut off";
    case QM_LOG_LIMIT: return "its payload limit is over 1,048,576: damaged on disk, or from a newer program";
    case QM_INDEX_FULL: return "more entries with a key than an index takes";
    case QM_NOT_AN_INDEX: return "not an index file: cut, damaged, or of another program";
    case QM_OTHER_LOG: return "not of this log: it covers more bytes than the log has, or leads to an entry of another key";
    default: return "docs/REFUSALS.md says why";
    }
}

int refused(const char *command, const char *path, qm_u32 number) {
    fprintf(stderr, "qm %s: %s: refused %u, %s\n", command, path, number, meaning(number));
    return REFUSED;
}
