/* What `copies` traces: each truncating call, and after it the calls that only measure the same content. It prints where its buffers
 * lie, and after each traced part what that was. A store to `mark` begins a part, and another ends it. */
#include <stdio.h>

#include "ruszvedok.h"

enum { SHORT = 1 << 12, LONG = 1 << 16, APART = 512, MOST_ENTRIES = LONG / APART, LABEL = 4, ELLIPSIS = 3 };

static volatile uint8_t mark;
static uint8_t content[LONG], text[LABEL * MOST_ENTRIES];
static uint32_t entries[RUSZVEDOK_ENTRY_SIZE * MOST_ENTRIES];
/* twice as much room as a result takes */
static uint8_t out_data[2 * LONG], out_text[2 * LABEL * MOST_ENTRIES];
static uint32_t out_entries[2 * RUSZVEDOK_ENTRY_SIZE * MOST_ENTRIES];
static ruszvedok_recording out = {
    out_data, sizeof out_data, 0, out_entries, sizeof out_entries / sizeof *out_entries, 0, out_text, sizeof out_text, 0};

/* ASCII with pushes and pops of labels, evenly apart. */
static ruszvedok_view recording(size_t size, size_t count)
{
    memset(content, 'x', size);
    memset(text, 'l', sizeof text);
    for (uint32_t i = 0; i < count; i++) {
        uint32_t at = (uint32_t)(size / count) * i;
        uint32_t push[] = {at, RUSZVEDOK_KIND_PUSH_LABEL, LABEL * i, LABEL}, pop[] = {at, RUSZVEDOK_KIND_POP_LABEL, 0, 0};
        memcpy(entries + RUSZVEDOK_ENTRY_SIZE * i, i % 2 == 0 ? push : pop, sizeof push);
    }
    return (ruszvedok_view){content, size, entries, RUSZVEDOK_ENTRY_SIZE * count, text, LABEL * count};
}

/* Cut to half of its width, or to all of it, so that nothing is cut. */
static void trace(bool end, bool cut, size_t size, size_t count)
{
    ruszvedok_view from = recording(size, count), ellipsis = ruszvedok_plain("...");
    size_t max = cut ? size / 2 : size, kept = cut ? max - ELLIPSIS : size, first = end ? 0 : size - kept;
    uint64_t res[5];
    mark = 1;
    (end ? ruszvedok_write_truncated_end : ruszvedok_write_truncated_start)(
        RUSZVEDOK_READ(from), RUSZVEDOK_READ(ellipsis), (uint32_t)max, RUSZVEDOK_LENT(&out), res);
    mark = 0;
    ruszvedok_take_over(&out, res);
    printf("called write_truncated_%s,%s %zu %zu %zu %zu %zu\n", end ? "end" : "start", cut ? "cut" : "whole", size, count, out.data_len,
        out.entries_len * sizeof *out_entries, out.text_len);
    mark = 1;
    if (end || !cut)
        ruszvedok_text_width(content, size);
    if (end && cut)
        ruszvedok_truncate_end_pos(content, size, kept);
    if (!end && cut)
        ruszvedok_truncate_start_pos(content, size, kept); /* it measures the whole first */
    if (!end)
        ruszvedok_zero_width_len(content + first, kept);
    mark = 0;
    printf("measured %zu %zu\n", first, first + kept);
}

/* A place as the trace has it. */
#define PLACE " %08lx,%zu"
#define OF(variable) (unsigned long)&variable, sizeof variable

int main(void)
{
    setvbuf(stdout, NULL, _IONBF, 0); /* a line stands in the trace where it is printed */
    printf("at" PLACE PLACE PLACE PLACE PLACE "\n", OF(mark), OF(content), OF(out_data), OF(out_entries), OF(out_text));
    for (int n = 0; n < 4; n++) {
        bool end = n / 2 == 1, cut = n % 2 == 0;
        trace(end, cut, SHORT, 0);
        trace(end, cut, LONG, 0);
        trace(end, cut, SHORT, SHORT / APART);
        trace(end, cut, LONG, SHORT / APART);
        trace(end, cut, LONG, LONG / APART);
    }
    return 0;
}
