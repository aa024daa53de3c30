/* What tools, tests and bench use of the system, declared once: the toolchain ships the C library without its headers. Programs are x86-64 Linux, and so are
   these numbers. */

#ifndef SYSTEM_H
#define SYSTEM_H

/* ---- text */

typedef struct file FILE;
extern FILE *stdin, *stdout, *stderr;

FILE *fopen(const char *path, const char *how);
FILE *fdopen(int file, const char *how);
int fclose(FILE *file);
unsigned long fread(void *to, unsigned long size, unsigned long n, FILE *file);
unsigned long fwrite(const void *from, unsigned long size, unsigned long n, FILE *file);
char *fgets(char *to, int room, FILE *file);
int printf(const char *format, ...);
int fprintf(FILE *file, const char *format, ...);
int sprintf(char *to, const char *format, ...);
int fflush(FILE *file);
int ferror(FILE *file);
/* What was printed and has not gone out is dropped. */
void __fpurge(FILE *file);
int setvbuf(FILE *file, char *buffer, int how, unsigned long length);
enum { WHOLE_BUFFERS = 0 };

int strcmp(const char *a, const char *b);
char *strchr(const char *text, int byte);
unsigned long strcspn(const char *text, const char *bytes);
char *strrchr(const char *text, int byte);
char *strcpy(char *to, const char *from);
unsigned long strlen(const char *text);
long atol(const char *text);

/* ---- memory */

void *malloc(unsigned long length);
void *realloc(void *at, unsigned long length);
void *calloc(unsigned long many, unsigned long size);
void free(void *at);
void *memcpy(void *to, const void *from, unsigned long length);
void *memmove(void *to, const void *from, unsigned long length);
void *memset(void *to, int byte, unsigned long length);
int memcmp(const void *a, const void *b, unsigned long length);
void qsort(void *at, unsigned long many, unsigned long size, int (*compare)(const void *, const void *));
unsigned long getauxval(unsigned long what);

void *mmap(void *at, unsigned long length, int allowed, int flags, int file, long offset);
int munmap(void *at, unsigned long length);
int mprotect(void *at, unsigned long length, int allowed);
int madvise(void *at, unsigned long length, int advice);
enum { MAY_NOTHING = 0, MAY_READ = 1, MAY_READ_AND_WRITE = 3, OF_A_FILE = 2, OF_NO_FILE = 0x22, ANYWHERE = 1, IN_ORDER = 2, NOT_NEEDED = 4 };

/* ---- files by name */

int rename(const char *from, const char *to);
int unlink(const char *path);
int mkdir(const char *path, unsigned mode);
enum { FOR_ALL_TO_ENTER = 0755, NOT_THERE = 2 };

/* What statx tells of a file; every processor has it in this order. */
struct facts {
    unsigned told, block;
    unsigned long long attributes;
    unsigned links, user, group;
    unsigned short mode, nothing;
    unsigned long long number, length, blocks, known, times[8];
    unsigned special[2], device[2];
    unsigned long long more[14];
};
int statx(int folder, const char *path, int how, unsigned wanted, struct facts *facts);
enum { THIS_FOLDER = -100, THE_FILE_ITSELF = 0x1000, BASIC_FACTS = 0x7ff, MODE_KIND = 0170000, PLAIN_FILE = 0100000 };

/* ---- files by number */

int open(const char *path, int how, ...);
long read(int file, void *to, unsigned long most);
long write(int file, const void *from, unsigned long length);
long pwrite(int file, const void *from, unsigned long length, long at);
long lseek(int file, long by, int from);
int ftruncate(int file, long length);
int fdatasync(int file);
int fsync(int file);
int flock(int file, int how);
int fcntl(int file, int what, ...);
int isatty(int file);
int close(int file);
int pipe(int ends[2]);
enum { TO_READ = 0, TO_READ_AND_WRITE = 2, CREATED = 0100, NOT_THERE_YET = 0200, FOR_ALL_TO_READ = 0644, FROM_END = 2, ALONE = 2, AT_ONCE = 4, PIPE_SIZE = 1031 };

struct folder;
struct folder_entry {
    unsigned long number, next;
    unsigned short length;
    unsigned char kind;
    char name[256];
};
struct folder *opendir(const char *path);
struct folder_entry *readdir(struct folder *folder);
int closedir(struct folder *folder);

/* ---- the process: its end, another one, its errors, signals and the time */

_Noreturn void exit(int status);
_Noreturn void _exit(int status);
int fork(void);
int waitpid(int process, int *status, int how);
int kill(int process, int number);
int prctl(int what, ...);
enum { ENDS_WITH_PARENT = 1 };
int *__errno_location(void);
char *strerror(int number);
enum { INTERRUPTED = 4, WOULD_WAIT = 11, IS_THERE = 17 };

void (*signal(int number, void (*handler)(int)))(int);
unsigned alarm(unsigned seconds);
enum { INTERRUPT = 2, BUS_ERROR = 7, KILLED = 9, NO_SUCH_MEMORY = 11, NO_LISTENER = 13, ALARM = 14, TERMINATE = 15, FILE_TOO_LARGE = 25 };
#define PASSED_OVER ((void (*)(int)) 1)

struct signals {
    unsigned long bits[16];
};
int sigemptyset(struct signals *set);
int sigaddset(struct signals *set, int number);
int sigprocmask(int how, const struct signals *set, struct signals *before);
enum { HELD_BACK_TOO = 0 };

struct timespec {
    long seconds, nanoseconds;
};
int clock_gettime(int clock, struct timespec *t);
enum { STEADY_CLOCK = 1 };

struct waited {
    int file;
    short for_what, what;
};
/* Waits for input at most that long (null: without end), with these signals held back meanwhile (null: those that are). */
int ppoll(struct waited *files, unsigned long many, const struct timespec *most, const struct signals *held_back);
enum { INPUT = 1, OUTPUT = 4 };

#endif
