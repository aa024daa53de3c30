/* twin make PROGRAM FOLDER     writes the streams of a program to FOLDER: N.in, and N.expected, what it must write for it
   twin compare FOLDER          compares each N.got there with N.expected, line by line, and prints how many agree and differ */

#include "twin.h"

u64 met[KINDS];

/* The streams of a program come first, then the paper's cases. */
enum { STREAMS = 32, LEAST = 20 };

struct program {
    const char *name;
    void (*stream)(struct stream *s, int which);
    void (*begin)(void);
    void (*give)(struct stream *s, const u8 *bytes, u64 length);
    const char *kinds[8];   /* what it answers beside refusals */
    int refusals[12];       /* the refusals that it can give */
};

static const struct program programs[] = {
    {"replay", replay_stream, begin_replay, give_datagram,
     {"kept", "delivered", "delivered, small", "repeat", "kept, emptied", "delivered, emptied"}, {1, 2, 4, 5, 6, 7, 8}},
    {"gaps", gaps_stream, begin_gaps, give_datagram, {"first", "forward", "same", "late", "restarted"}, {1, 2, 4, 5, 6, 7}},
    {"lmcp_list", list_stream, 0, give_message, {"list"}, {13, 20, 21, 22, 23, 24, 25, 26, 27, 28}},
    {"lmcp_bytes", bytes_stream, 0, give_list, {"bytes"}, {21, 23, 24, 25, 26, 27, 28, 29}},
    {"count_pits", count_stream, 0, 0, {"kept", "repeated", "delivered", "lists", "tiles"}, {1, 2, 4, 5, 6, 7, 8}},
};

static void *file_of(const char *folder, int which, const char *kind, const char *how) {
    char path[4096];
    sprintf(path, "%.3000s/%d.%s", folder, which, kind);
    return fopen(path, how);
}

void end_stream(struct stream *s, int width, int cut) {
    u8 bytes[8] = {0, 0, 0, 0, 0, 0, 0, 0};
    if (cut == 0) {
        fprintf(s->expected, "end %llu\n", s->number);
        return;
    }
    bytes[width - 1] = 9;
    /* inside the length, right behind it, or inside the body, which may be said to be larger than any program holds */
    if (cut > 1 && chance(50)) bytes[width == 5 ? 1 : 0] = 255;
    u64 more = cut == 1 ? between(1, (u64) width - 1) : cut == 2 ? (u64) width : (u64) width + between(1, 8 - (u64) width);
    fwrite(bytes, 1, more, s->in);
    fprintf(s->expected, "cut %llu\n", s->number);
}

/* Says how often each answer is expected. An answer met too seldom is a fault of the twin. */
static int report(const struct program *p, u64 all) {
    int good = 1;
    printf("twin: %s: %llu inputs;", p->name, all);
    for (int i = 0; i < 8 && p->kinds[i]; i++) {
        printf(" %s %llu;", p->kinds[i], met[FIRST_KIND + i]);
        good &= met[FIRST_KIND + i] >= LEAST;
    }
    printf(" refused");
    for (int i = 0; i < 12 && p->refusals[i]; i++) {
        printf(" %d: %llu", p->refusals[i], met[p->refusals[i]]);
        good &= met[p->refusals[i]] >= LEAST;
    }
    printf("\n");
    if (!good) printf("twin: %s: an answer comes too seldom to be tested\n", p->name);
    return good ? 0 : 1;
}

/* ---- comparing */

struct text {
    char *at, *end;
};

static struct text read_text(const char *folder, int which, const char *kind) {
    struct text t = {0, 0};
    unsigned long room = 1 << 20, length = 0, more;
    void *file = file_of(folder, which, kind, "r");
    char *bytes = malloc(room);
    while (file && (more = fread(bytes + length, 1, room - length, file)) > 0) {
        length += more;
        if (length < room) continue;
        char *wider = malloc(room *= 2);
        memcpy(wider, bytes, length);
        free(bytes);
        bytes = wider;
    }
    if (file) fclose(file);
    t.at = bytes;
    t.end = bytes + length;
    return t;
}

/* The next line without its end; its length is -1 where there is none. */
static char *line(struct text *t, long *length) {
    char *begin = t->at;
    if (begin == t->end) {
        *length = -1;
        return begin;
    }
    while (t->at < t->end && *t->at != '\n') t->at++;
    *length = t->at - begin;
    if (t->at < t->end) t->at++;
    else (*length)++;   /* a last line that was not ended is another line */
    return begin;
}

static int shown(long length) { return length < 0 ? 0 : length < 120 ? (int) length : 120; }

static void compare_stream(const char *folder, int which, const char *kind, u64 *agree, u64 *differ) {
    struct text expected = read_text(folder, which, "expected"), got = read_text(folder, which, kind);
    char *expected_begin = expected.at, *got_begin = got.at;
    u64 told = 0;
    for (;;) {
        long e, g;
        char *a = line(&expected, &e), *b = line(&got, &g);
        if (e < 0 && g < 0) break;
        if (e == g && memcmp(a, b, (unsigned long) e) == 0) {
            (*agree)++;
            continue;
        }
        (*differ)++;
        if (told++ < 3) printf("twin: %s/%d.in: expected '%.*s', got '%.*s'\n", folder, which, shown(e), a, shown(g), b);
    }
    free(expected_begin);
    free(got_begin);
}

/* ---- making */

static struct stream open_stream(const char *folder, int which, const char *expected) {
    struct stream s = {file_of(folder, which, "in", "w"), file_of(folder, which, expected, "w"), 0};
    if (s.in && s.expected) return s;
    printf("twin: cannot write to %s\n", folder);
    exit(2);
}

static void close_stream(struct stream *s) {
    fclose(s->in);
    fclose(s->expected);
}

/* One of the paper's cases: the twin's own answer goes beside the paper's, and the two must agree. */
static int make_paper(const struct program *p, const struct paper_case *c, const char *folder, int which) {
    struct stream s = open_stream(folder, which, "twin");
    u8 bytes[256];
    u64 length, agree = 0, differ = 0;
    if (p->begin) p->begin();
    for (const char *at = c->input; (at = paper_item(at, bytes, &length)) != 0;) p->give(&s, bytes, length);
    end_stream(&s, 0, 0);
    close_stream(&s);
    void *file = file_of(folder, which, "expected", "w");
    fprintf(file, "%s", c->output);
    fclose(file);
    compare_stream(folder, which, "twin", &agree, &differ);
    if (differ > 0) printf("twin: the twin differs from the paper\n");
    return differ > 0;
}

static int make(const struct program *p, const char *folder) {
    u64 all = 0;
    int which = 0, bad = 0;
    for (; which < STREAMS; which++) {
        struct stream s = open_stream(folder, which, "expected");
        random_state = 7000 + (u64) which;
        p->stream(&s, which);
        close_stream(&s);
        all += s.number;
    }
    bad |= report(p, all);
    for (const struct paper_case *c = paper_cases; c->program; c++)
        if (strcmp(c->program, p->name) == 0) bad |= make_paper(p, c, folder, which++);
    return bad;
}

static int compare(const char *folder) {
    u64 agree = 0, differ = 0;
    for (int which = 0;; which++) {
        void *file = file_of(folder, which, "expected", "r");
        if (!file) break;
        fclose(file);
        compare_stream(folder, which, "got", &agree, &differ);
    }
    printf("%llu %llu\n", agree, differ);
    return 0;
}

int main(int n, char **words) {
    if (n == 3 && strcmp(words[1], "compare") == 0) return compare(words[2]);
    for (u64 i = 0; n == 4 && strcmp(words[1], "make") == 0 && i < sizeof programs / sizeof *programs; i++)
        if (strcmp(programs[i].name, words[2]) == 0) return make(&programs[i], words[3]);
    printf("usage: twin make replay|gaps|lmcp_list|lmcp_bytes|count_pits FOLDER, or twin compare FOLDER\n");
    return 2;
}
