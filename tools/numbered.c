/* Logs named by number, and the folder that a file stands in. */

#include "numbered.h"

/* How many bytes of a path are its folder with the last slash, and how many are before its ending, `.log`. A name that begins with its only dot has none. */
static qm_size folder_length(const char *path) {
    const char *slash = strrchr(path, '/');
    return slash ? (qm_size) (slash - path) + 1 : 0;
}

static qm_size stem_length(const char *path) {
    const char *dot = strrchr(path, '.');
    return dot && dot > path + folder_length(path) ? (qm_size) (dot - path) : strlen(path);
}

char *numbered_path(const char *path, qm_u64 number) {
    qm_size stem = stem_length(path);
    char *made = malloc(strlen(path) + 32);
    if (!made) return 0;
    memcpy(made, path, stem);
    if (number == 0) strcpy(made + stem, path + stem);
    else sprintf(made + stem, "-%04llu%s", number, path + stem);
    return made;
}

static char *folder_of(const char *path) {
    qm_size length = folder_length(path);
    char *folder = malloc(length + 2);
    if (!folder) return 0;
    memcpy(folder, path, length);
    strcpy(folder + length, length ? "" : ".");
    return folder;
}

/* The number of a name in the folder; 0 where it is none of these. Only the name that this number has counts: -00001 is none. */
static qm_u64 number_of(const char *path, const char *name) {
    qm_size folder = folder_length(path), stem = stem_length(path) - folder;
    qm_u64 number = 0;
    if (strlen(name) <= stem + 1 || memcmp(name, path + folder, stem) != 0 || name[stem] != '-') return 0;
    for (const char *at = name + stem + 1; *at >= '0' && *at <= '9'; at++) {
        if (number > (~0ull >> 8)) return 0;
        number = 10 * number + (qm_u64) (*at - '0');
    }
    char *same = numbered_path(path, number);
    int is = number > 0 && same && strcmp(same + folder, name) == 0;
    free(same);
    return is ? number : 0;
}

int numbered_last(const char *command, const char *path, qm_u64 *number) {
    char *folder = folder_of(path);
    struct folder *open_folder = folder ? opendir(folder) : 0;
    *number = 0;
    if (!open_folder) {
        failed(command, folder ? folder : path);
        free(folder);
        return FAILED;
    }
    for (struct folder_entry *e = readdir(open_folder); e; e = readdir(open_folder)) {
        qm_u64 n = number_of(path, e->name);
        if (n > *number) *number = n;
    }
    closedir(open_folder);
    free(folder);
    return DONE;
}

int sync_folder(const char *command, const char *path) {
    char *folder = folder_of(path);
    int file = folder ? open(folder, TO_READ) : -1;
    int status = file >= 0 && fsync(file) == 0 ? DONE : failed(command, folder ? folder : path);
    if (file >= 0) close(file);
    free(folder);
    return status;
}
