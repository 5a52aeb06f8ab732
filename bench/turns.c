/* Two builds of the library in one process, called in turns on the same texts: see `turns`. The texts and what is asked
 * are those of `src/inputs.rs` and `src/cases.rs`, and for wrapping the hard texts of `src/bin/linear.rs`. A side's answers must be
 * the other's, but for pictures: their width is 1 before document 02's Q-5 and 2 since, so such sides cut, fill and wrap at other places. */
#define _GNU_SOURCE
#include <dlfcn.h>
#include <stdio.h>
#include <stdlib.h>
#include <time.h>

#include "ruszvedok.h"

enum { SHORT = 80, LONG = 1 << 16, LINE = 100, ROWS = 64, FEW_ENTRIES = LONG / 512, MOST_ENTRIES = 4096, LABEL = 16, MOST_LINES = LONG + 1,
    ROOM = 2 * LONG };

/* A text with entries: six in a short row, one for each 512 bytes of a long text, or a page full of labels. */
typedef struct row {
    ruszvedok_view view;
    uint32_t entries[RUSZVEDOK_ENTRY_SIZE * MOST_ENTRIES];
    uint8_t text[LABEL * MOST_ENTRIES];
    uint32_t records[LONG / 32 * 4];
    size_t records_len, half, lines;
    uint32_t index[MOST_LINES]; /* where its lines start; how many, and how many of its first nine tenths */
    size_t index_len, index_before;
    uint32_t ends[RUSZVEDOK_MAX_CELLS]; /* its bytes as cells of one length: 8, or 64 of a long text */
    size_t cells;
} row;

/* One of the two sides. */
static void *side;
static size_t line_numbers;
#define CALL(name) ((__typeof__(name) *)dlsym(side, #name))

static uint8_t out_data[ROOM];
static uint32_t out_entries[ROOM];
static uint8_t out_text[ROOM];
static uint32_t out_lines[4 * MOST_LINES]; /* up to four numbers a line */
static ruszvedok_recording out = {out_data, ROOM, 0, out_entries, ROOM, 0, out_text, ROOM, 0};
static uint64_t res[5];

/* Of a tally sheet: ten wide, with each alignment. */
static const uint32_t columns[] = {10, RUSZVEDOK_ALIGN_START, 10, RUSZVEDOK_ALIGN_END, 10, RUSZVEDOK_ALIGN_CENTER, 10, RUSZVEDOK_ALIGN_START};

typedef struct task {
    uint32_t width;
    bool break_words, exact;
} task;

/* Each call on one row; `f` is its function on the side that is timed. */
#define ON_ROW(name, ...) \
    static void name(void *f, const row *r, task t) { (void)t; ((__typeof__(ruszvedok_##name) *)f)(__VA_ARGS__); }
#define CONTENT RUSZVEDOK_READ(r->view)
#define SECOND(string) RUSZVEDOK_READ(ruszvedok_plain(string))
#define LENT RUSZVEDOK_LENT(&out)
#define LINES out_lines, line_numbers *(t.exact ? r->lines : r->view.data_len + 1)
#define EARLIER(r) ((r)->view.data_len / 10 * 9)
ON_ROW(replay, CONTENT, LENT, res)
ON_ROW(write_truncated_start, CONTENT, SECOND(".."), (uint32_t)r->half, LENT, res)
ON_ROW(write_truncated_end, CONTENT, SECOND(".."), (uint32_t)r->half, LENT, res)
ON_ROW(write_padded_start, CONTENT, SECOND("."), (uint32_t)(2 * r->half + 20), LENT, res)
ON_ROW(write_padded_end, CONTENT, SECOND("."), (uint32_t)(2 * r->half + 20), LENT, res)
ON_ROW(write_padded_centered, CONTENT, SECOND("."), (uint32_t)(2 * r->half + 20), LENT, res)
ON_ROW(write_indented, CONTENT, SECOND("> "), LENT, res)
ON_ROW(write_unindented, CONTENT, SECOND("> "), LENT, res)
ON_ROW(wrap_bytes, r->view.data, r->view.data_len, t.width, t.break_words, LINES, res)
ON_ROW(write_wrapped, CONTENT, t.width, t.break_words, LENT, LINES, res)
ON_ROW(write_replaced, CONTENT, r->records, r->records_len, (const uint8_t *)"new", 3, LENT, res)
ON_ROW(write_tabs_expanded, CONTENT, 8, LENT, res)
ON_ROW(write_for_office, CONTENT, (const uint8_t *)"work", 4, LENT, res)
ON_ROW(write_for_floor, CONTENT, (const uint8_t *)"work", 4, LENT, res)
ON_ROW(build_line_index, CONTENT, out_lines, t.exact ? r->lines : r->view.data_len + 1, res)
/* the list is the row's own: it holds the whole index, and extending leaves that */
ON_ROW(extend_line_index, CONTENT, EARLIER(r), (uint32_t *)r->index, t.exact ? r->lines : MOST_LINES, r->index_before, res)
ON_ROW(line_at, CONTENT, r->index, r->index_len, r->index_len / 2, res)
ON_ROW(place_of, CONTENT, r->index, r->index_len, r->view.data_len / 2, res)
ON_ROW(write_truncated_cells, r->view.data, r->view.data_len, r->ends, r->cells, (const uint8_t *)"..", 2, (uint32_t)(r->half / r->cells), out_data,
    ROOM, out_lines, RUSZVEDOK_CELL_NUMBERS * RUSZVEDOK_MAX_CELLS, res)
ON_ROW(write_tally, r->view.data, r->view.data_len, columns, sizeof columns / sizeof *columns, out_data, ROOM, res)
ON_ROW(elide_start, r->view.data, r->view.data_len, (const uint8_t *)"..", 2, (uint32_t)r->half, out_data, ROOM, res)
ON_ROW(elide_end, r->view.data, r->view.data_len, (const uint8_t *)"..", 2, (uint32_t)r->half, out_data, ROOM, res)
ON_ROW(complete_newline, r->view.data, r->view.data_len, out_data, ROOM, res)

typedef struct call {
    const char *name, *symbol;
    void (*run)(void *, const row *, task);
    bool lined, plain;
} call;
#define OF(name, lined, plain) {#name, "ruszvedok_" #name, name, lined, plain}
static const call calls[] = {
    OF(replay, false, false), OF(write_truncated_start, false, false), OF(write_truncated_end, false, false),
    OF(write_padded_start, false, false), OF(write_padded_end, false, false), OF(write_padded_centered, false, false),
    OF(write_indented, false, false), OF(write_unindented, false, false), OF(wrap_bytes, true, false), OF(write_wrapped, true, false),
    OF(write_replaced, false, false), OF(write_tabs_expanded, false, false), OF(write_for_office, false, false),
    OF(write_for_floor, false, false), OF(build_line_index, true, false), OF(extend_line_index, true, false), OF(line_at, false, false),
    OF(place_of, false, false), OF(write_truncated_cells, false, false), OF(write_tally, false, true), OF(elide_start, false, true),
    OF(elide_end, false, true), OF(complete_newline, false, true)};

static const call *named(const char *name)
{
    const call *c = calls;
    while (strcmp(c->name, name) != 0)
        c++;
    return c;
}

/* ---- the texts ---- */
static uint64_t seed;
static uint64_t within(uint64_t first, uint64_t last)
{
    seed ^= seed << 13;
    seed ^= seed >> 7;
    seed ^= seed << 17;
    return first + ((seed * 0x2545F4914F6CDD1Du) >> 16) % (last - first + 1);
}

/* Letters that are not ASCII: of a hundred so many are of this range or of one before it. */
typedef struct range {
    uint32_t share, first, last;
} range;
/* Mostly of width 2 and three bytes. */
static const range mixed[] = {{60, 0x4E00, 0x9FFF}, {75, 0x3041, 0x30FF}, {85, 0xAC00, 0xD7A3}, {92, 0xC0, 0x17F}, {95, 0x300, 0x36F},
    {97, 0x1F300, 0x1F5FF}, {99, 0xFF01, 0xFF60}, {100, 0x20000, 0x2A6DF}};
/* Width 1, before the first range of pictures, and width 2, behind the last: any two builds agree about them. */
static const range four_byte[] = {{50, 0x1F300, 0x1F5FF}, {100, 0x20000, 0x2A6DF}};
static const range pictures[] = {{50, 0x1F600, 0x1F64F}, {100, 0x1F680, 0x1F6C5}};

/* Words of ASCII; the same with words of other letters, as many; any bytes. The first three are taken, or the one that is asked for. */
enum { ASCII, MIXED, RANDOM, FOUR_BYTE, PICTURES };
static const struct { const char *name, *option; const range *other; } kinds[] = {
    {"ASCII", "", NULL}, {"mixed CJK", "", mixed}, {"random bytes", "", NULL},
    {"four-byte characters", "--four-byte", four_byte}, {"pictures", "--pictures", pictures}};

/* Writes a letter of ASCII, or one of the ranges; returns its length. */
static size_t letter(uint8_t *to, const range *other)
{
    static const char letters[] = "abcdefghijklmnopqrstuvwxyzabcdefghijklmnopqrstuvwxyzABCDEFGHIJ0123456789.,-_/()";
    if (other == NULL) {
        *to = (uint8_t)letters[within(0, sizeof letters - 2)];
        return 1;
    }
    for (uint64_t n = within(0, 99); other->share <= n;)
        other++;
    uint32_t c = (uint32_t)within(other->first, other->last);
    size_t len = c < 0x800 ? 2 : c < 0x10000 ? 3 : 4;
    for (size_t i = len; i-- > 1; c >>= 6)
        to[i] = (uint8_t)(0x80 | (c & 0x3F));
    to[0] = (uint8_t)((len == 2 ? 0xC0 : len == 3 ? 0xE0 : 0xF0) | c);
    return len;
}

static void text(int kind, uint8_t *to, size_t size)
{
    size_t at = 0;
    if (kind == RANDOM)
        for (; at < size; at++)
            to[at] = (uint8_t)within(0, 255);
    while (at < size) {
        const range *other = kinds[kind].other != NULL && within(0, 1) == 0 ? kinds[kind].other : NULL;
        for (uint64_t n = within(1, 9); n > 0 && at < size; n--) {
            uint8_t made[4];
            size_t len = letter(made, at + 4 <= size ? other : NULL);
            memcpy(to + at, made, len);
            at += len;
        }
        if (at < size)
            to[at++] = ' ';
    }
}

/* Every third space of words is a tab, and every 18th of any bytes. */
static void put_tabs(int kind, uint8_t *to, size_t size)
{
    size_t spaces = 0;
    for (size_t at = 0; at < size; at++)
        if (kind == RANDOM ? at % 18 == 0 : to[at] == ' ' && spaces++ % 3 == 0)
            to[at] = '\t';
}

/* A prefix at each line that fill_row makes, and no line but these. */
static void put_prefixes(uint8_t *to, size_t size)
{
    for (size_t at = 0; at < size; at++)
        if (to[at] == '\n')
            to[at] = ' ';
    memcpy(to, "> ", 2);
    for (size_t i = 1; i < size / LINE; i++)
        memcpy(to + LINE * i + 1, "> ", 2);
}

/* Cells of eight bytes, or more up to the next character, in whole lines: a comma or 0A takes the place of each such character. */
static void put_cells(uint8_t *to, size_t size)
{
    enum { CELL = 8, COLUMNS = sizeof columns / sizeof *columns / RUSZVEDOK_COLUMN_NUMBERS };
    static size_t ends[LONG];
    size_t count = 0;
    for (size_t at = 0, from = 0; at < size; at++) {
        if (to[at] == ',')
            to[at] = '.';
        if (at >= from + CELL && (to[at] & 0xC0) != 0x80) {
            ends[count++] = at;
            from = at + 1;
            to[at] = ' ';
            for (size_t k = from; k < size && (to[k] & 0xC0) == 0x80; k++)
                to[k] = ' ';
        }
    }
    count -= (count + 1) % COLUMNS;
    for (size_t i = 0; i < count; i++)
        to[ends[i]] = (i + 1) % COLUMNS == 0 ? '\n' : ',';
}

static void fill_row(row *r, uint8_t *data, size_t size, bool broken, size_t count)
{
    for (size_t i = 1; broken && i < size / LINE; i++)
        data[LINE * i] = '\n';
    size_t used = 0;
    for (size_t i = 0; i < count; i++) {
        uint32_t len = i % 2 == 0 ? (uint32_t)(4 + i % 8) : 0, *entry = r->entries + RUSZVEDOK_ENTRY_SIZE * i;
        entry[0] = (uint32_t)(size * i / count);
        entry[1] = i % 2 == 0 ? RUSZVEDOK_KIND_PUSH_LABEL : RUSZVEDOK_KIND_POP_LABEL;
        entry[2] = i % 2 == 0 ? (uint32_t)used : 0;
        entry[3] = len;
        memcpy(r->text + used, "working_copy", len);
        used += len;
    }
    r->records_len = size / 32 * 4;
    for (uint32_t i = 0; i < size / 32; i++) {
        uint32_t record[4] = {i * 32, i * 32 + 4, 0, 3};
        memcpy(r->records + 4 * i, record, sizeof record);
    }
    r->view = (ruszvedok_view){data, size, r->entries, RUSZVEDOK_ENTRY_SIZE * count, r->text, used};
    r->half = CALL(ruszvedok_text_width)(data, size) / 2;
    r->index[0] = 0;
    r->index_len = r->index_before = 1;
    for (size_t at = 0; at < size; at++)
        if (data[at] == '\n') {
            r->index_before += at < EARLIER(r);
            r->index[r->index_len++] = (uint32_t)at + 1;
        }
    r->cells = size <= SHORT ? 8 : RUSZVEDOK_MAX_CELLS;
    for (size_t k = 0; k < r->cells; k++)
        r->ends[k] = (uint32_t)(size * (k + 1) / r->cells);
}

/* A page full of pushes with so many different labels, which are alike but for their last four bytes. */
static void fill_page(row *r, uint8_t *data, size_t labels)
{
    char label[LABEL + 1];
    fill_row(r, data, LONG, true, 0);
    for (uint32_t i = 0; i < MOST_ENTRIES; i++) {
        uint32_t entry[] = {LONG / MOST_ENTRIES * i, RUSZVEDOK_KIND_PUSH_LABEL, LABEL * i, LABEL};
        memcpy(r->entries + RUSZVEDOK_ENTRY_SIZE * i, entry, sizeof entry);
        snprintf(label, sizeof label, "board grade %04zu", i % labels);
        memcpy(r->text + LABEL * i, label, LABEL);
    }
    r->view = (ruszvedok_view){data, LONG, r->entries, RUSZVEDOK_ENTRY_SIZE * MOST_ENTRIES, r->text, LABEL * MOST_ENTRIES};
}

/* ---- timing ---- */
static void *sides[2];
static size_t numbers[2];
static int rounds = 60;

static void take(int which)
{
    side = sides[which];
    line_numbers = numbers[which];
}

static double once(const call *c, void *f, row *rows, size_t count, task t)
{
    struct timespec start, end;
    clock_gettime(CLOCK_MONOTONIC, &start);
    for (size_t i = 0; i < count; i++)
        c->run(f, rows + i, t);
    clock_gettime(CLOCK_MONOTONIC, &end);
    return (double)(end.tv_sec - start.tv_sec) * 1e9 + (double)(end.tv_nsec - start.tv_nsec);
}

static int compared(const void *a, const void *b)
{
    return (*(const double *)a > *(const double *)b) - (*(const double *)a < *(const double *)b);
}

static void compare(const call *c, const char *of, row *rows, size_t count, task t, bool must_agree)
{
    void *f[2];
    uint64_t answers[2][5] = {{0}};
    double shortest[2] = {1e18, 1e18}, *ratios = malloc((size_t)rounds * sizeof *ratios);
    for (int s = 0; s < 2; s++) {
        take(s);
        f[s] = dlsym(side, c->symbol);
        for (size_t i = 0; i < count; i++) {
            memset(res, 0, sizeof res); /* a question writes three numbers */
            c->run(f[s], rows + i, (task){t.width, t.break_words, false});
            rows[i].lines = res[RUSZVEDOK_RES_NUMBER];
            for (int k = 0; k < 5; k++) /* an archive from before document 02's Q-8 stores equal labels again */
                answers[s][k] += k == RUSZVEDOK_RES_TEXT ? 0 : res[k] * (i + 1);
        }
    }
    if (must_agree && memcmp(answers[0], answers[1], sizeof answers[0]) != 0)
        printf("%s, %s: the answers differ\n", c->name, of), exit(1);
    for (int k = 0; k < rounds; k++) {
        double took[2];
        for (int n = 0; n < 2; n++) {
            int s = (n + k) % 2;
            take(s);
            took[s] = once(c, f[s], rows, count, t);
            if (took[s] < shortest[s])
                shortest[s] = took[s];
        }
        ratios[k] = took[1] / took[0];
    }
    qsort(ratios, (size_t)rounds, sizeof *ratios, compared);
    printf("| `%s`%s | %s | %.2f | %.2f | %.2f |\n", c->name, t.exact ? ", exact list" : "", of,
        shortest[0] / (double)(count * rows->view.data_len), shortest[1] / shortest[0], ratios[rounds / 2]);
    free(ratios);
}

static bool asked(const char *name, int argc, char **argv)
{
    for (int i = 4; i < argc; i++)
        if (strcmp(argv[i], name) == 0)
            return true;
    return argc <= 4;
}

/* Takes an option out of the words, if it is there. */
static bool taken(const char *option, int *argc, char **argv)
{
    for (int i = 3; i < *argc; i++)
        if (strcmp(argv[i], option) == 0) {
            memmove(argv + i, argv + i + 1, (size_t)(--*argc - i) * sizeof *argv);
            return true;
        }
    return false;
}

/* The kind whose option is among the words, or RANDOM, the last of those that are taken without one. */
static int last_kind(int *argc, char **argv)
{
    for (int kind = FOUR_BYTE; kind <= PICTURES; kind++)
        if (taken(kinds[kind].option, argc, argv))
            return kind;
    return RANDOM;
}

int main(int argc, char **argv)
{
    static const struct { const char *name, *unit; uint32_t width; bool break_words; } hard[] = {
        {"no space, width 1, breaking", "x", 1, true}, {"no space, width 80, breaking", "x", 80, true},
        {"no space, width 80", "x", 80, false}, {"short words, width 80", "oak 12 ft ", 80, false},
        {"words as wide as the line, width 4", "oaks firs ", 4, false}, {"wide characters, width 1, breaking", "\xE6\x9C\xA8", 1, true},
        {"zero-width characters, width 1, breaking", "\xCC\x81", 1, true}, {"ill-formed bytes, width 1, breaking", "\xE6\x9C", 1, true},
        {"spaces", " ", 80, false}, {"line ends", "\n", 80, false}};
    static row rows[ROWS];
    static uint8_t data[LONG];
    bool full = taken("--labels", &argc, argv);
    int last = last_kind(&argc, argv), first = last == RANDOM ? ASCII : last;
    if (argc > 3)
        rounds = atoi(argv[3]);
    for (int s = 0; s < 2; s++) {
        sides[s] = dlopen(argv[1 + s], RTLD_NOW | RTLD_LOCAL);
        if (sides[s] == NULL)
            return fprintf(stderr, "%s\n", dlerror()), 2;
        /* as many numbers a line as one empty line needs */
        for (side = sides[s], res[0] = 1; res[RUSZVEDOK_RES_REFUSAL] != 0;)
            CALL(ruszvedok_wrap_bytes)(data, 0, 1, false, out_lines, ++numbers[s], res);
    }
    puts("| call | input | old, ns a byte | shortest, new of old | median, new of old |\n|---|---|---|---|---|");
    for (size_t labels = 8; full && labels <= MOST_ENTRIES; labels *= MOST_ENTRIES / 8)
        for (const call *c = named("replay"); c <= named("write_tabs_expanded"); c++)
            if (c->run != write_unindented && c->run != wrap_bytes && asked(c->name, argc, argv)) {
                char of[40];
                sprintf(of, "64 KiB, 4,096 pushes, %zu labels", labels);
                take(0);
                text(ASCII, data, LONG);
                fill_page(rows, data, labels);
                compare(c, of, rows, 1, (task){72, false, false}, true);
            }
    for (const call *c = calls; !full && c < calls + sizeof calls / sizeof *calls; c++)
        for (int n = 2 * first; n < 2 * last + 2 && asked(c->name, argc, argv); n++) {
            int kind = n / 2;
            size_t size = n % 2 == 0 ? SHORT : LONG, count = n % 2 == 0 ? ROWS : 1;
            char of[40];
            if (c->plain && kind == RANDOM)
                continue; /* refused: not well-formed */
            if (dlsym(sides[0], c->symbol) == NULL || dlsym(sides[1], c->symbol) == NULL)
                continue; /* one of the two has not got it yet */
            take(0);
            seed = 0x9E3779B97F4A7C15u ^ size << 8 ^ (uint64_t)kind;
            for (size_t i = 0; i < count; i++) {
                text(kind, data + i * size, size);
                if (c->run == write_tabs_expanded)
                    put_tabs(kind, data + i * size, size);
                if (c->run == write_unindented)
                    put_prefixes(data + i * size, size);
                if (c->run == write_tally)
                    put_cells(data + i * size, size);
                fill_row(rows + i, data + i * size, size, !c->plain && size == LONG, size == SHORT ? 6 : FEW_ENTRIES);
            }
            sprintf(of, "%s, %s", kinds[kind].name, size == SHORT ? "80 B" : "64 KiB");
            /* of pictures the two may have other numbers of lines, so no list is exact for both */
            for (int exact = 0; exact <= (c->lined && kind != PICTURES); exact++)
                compare(c, of, rows, count, (task){size == SHORT ? 30 : 72, false, exact}, kind != PICTURES);
        }
    for (size_t n = 0; n < sizeof hard / sizeof *hard && last == RANDOM && !full && asked("wrap_bytes", argc, argv); n++) {
        size_t unit = strlen(hard[n].unit), size = LONG / unit * unit;
        for (size_t i = 0; i < size; i++)
            data[i] = (uint8_t)hard[n].unit[i % unit];
        take(0);
        fill_row(rows, data, size, false, 0);
        for (int exact = 0; exact < 2; exact++)
            compare(named("wrap_bytes"), hard[n].name, rows, 1, (task){hard[n].width, hard[n].break_words, exact}, true);
    }
    return 0;
}
