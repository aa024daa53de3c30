/* The forms in which pits are printed. */

#include "forms.h"

static void nothing(void) {
}

/* ---- lines */

static void print_line(const struct mark *m, qm_u64 marks, const char *log) {
    printf("tile %llu pit %llu sure %d", m->tile, m->pit, m->sure);
    if (marks > 0) printf(" marks %llu", marks);
    if (m->placed) printf(" lat %lld lon %lld height %lld", m->lat, m->lon, m->height);
    if (m->measured) printf(" depth %lld", m->depth);
    printf(" sender %llu sequence %llu tick %llu log %s\n", m->sender, m->sequence, m->tick, log);
}

/* ---- a table: comma-separated values by RFC 4180, but for the ends of lines */

static void print_heads(void) {
    printf("tile,pit,sure,marks,lat,lon,height,depth,sender,sequence,tick,log\n");
}

/* A value with a comma, a quote or an end of line stands in quotes, its quotes doubled. */
static void print_value(const char *text) {
    if (text[strcspn(text, ",\"\r\n")] == 0) {
        printf("%s", text);
        return;
    }
    printf("\"");
    for (; *text; text++) printf(*text == '"' ? "\"\"" : "%c", *text);
    printf("\"");
}

static void print_row(const struct mark *m, qm_u64 marks, const char *log) {
    printf("%llu,%llu,%d,%llu,", m->tile, m->pit, m->sure, marks);
    if (m->placed) printf("%lld,%lld,%lld,", m->lat, m->lon, m->height);
    else printf(",,,");
    if (m->measured) printf("%lld", m->depth);
    printf(",%llu,%llu,%llu,", m->sender, m->sequence, m->tick);
    print_value(log);
    printf("\n");
}

/* ---- a map: GeoJSON by RFC 7946 */

/* Ten-millionths of a degree as degrees. */
static void print_degrees(qm_i64 n) {
    qm_u64 size = n < 0 ? 0 - (qm_u64) n : (qm_u64) n;
    printf("%s%llu.%07llu", n < 0 ? "-" : "", size / 10000000, size % 10000000);
}

/* How many bytes the well-formed UTF-8 at the start of a text has (RFC 3629), 0 where it is none. */
static unsigned utf8_length(const char *text) {
    const qm_byte *b = (const qm_byte *) text;
    unsigned more = b[0] < 0x80 ? 0 : b[0] < 0xc2 ? 4 : b[0] < 0xe0 ? 1 : b[0] < 0xf0 ? 2 : b[0] < 0xf5 ? 3 : 4;
    if (more == 4) return 0;
    /* no overlong form, no surrogate, nothing above 10ffff */
    qm_byte low = b[0] == 0xe0 ? 0xa0 : b[0] == 0xf0 ? 0x90 : 0x80, high = b[0] == 0xed ? 0x9f : b[0] == 0xf4 ? 0x8f : 0xbf;
    if (more > 0 && (b[1] < low || b[1] > high)) return 0;
    for (unsigned i = 2; i <= more; i++)
        if ((b[i] & 0xc0) != 0x80) return 0;
    return more + 1;
}

/* A string of JSON (RFC 8259), which is UTF-8: a byte that is none becomes the replacement character. */
static void print_string(const char *text) {
    printf("\"");
    while (*text) {
        unsigned length = utf8_length(text);
        if (length == 0) printf("\xef\xbf\xbd");
        else if (*text == '"' || *text == '\\') printf("\\%c", *text);
        else if (length == 1 && (*text < 32 || *text == 127)) printf("\\u%04x", (unsigned) *text);
        else fwrite(text, 1, length, stdout);
        text += length == 0 ? 1 : length;
    }
    printf("\"");
}

static int is_first;

static void print_opening(void) {
    printf("{\"type\":\"FeatureCollection\",\"features\":[");
    is_first = 1;
}

static void print_point(const struct mark *m) {
    printf("{\"type\":\"Point\",\"coordinates\":[");
    print_degrees(m->lon);
    printf(",");
    print_degrees(m->lat);
    printf(",%lld]}", m->height);
}

/* What is left out is null: each feature has all properties. */
static void print_feature(const struct mark *m, qm_u64 marks, const char *log) {
    printf("%s\n{\"type\":\"Feature\",\"geometry\":", is_first ? "" : ",");
    is_first = 0;
    if (m->placed) print_point(m);
    else printf("null");
    printf(",\"properties\":{\"tile\":%llu,\"pit\":%llu,\"sure\":%d,\"marks\":%llu", m->tile, m->pit, m->sure, marks);
    if (m->placed) printf(",\"lat\":%lld,\"lon\":%lld,\"height\":%lld", m->lat, m->lon, m->height);
    else printf(",\"lat\":null,\"lon\":null,\"height\":null");
    if (m->measured) printf(",\"depth\":%lld", m->depth);
    else printf(",\"depth\":null");
    printf(",\"sender\":%llu,\"sequence\":%llu,\"tick\":%llu,\"log\":", m->sender, m->sequence, m->tick);
    print_string(log);
    printf("}}");
}

static void print_closing(void) {
    printf("\n]}\n");
}

const struct form as_lines = {nothing, print_line, nothing}, as_table = {print_heads, print_row, nothing}, as_map = {print_opening, print_feature, print_closing};
