/* A board row with its grade as a label, cut to 18 columns and wrapped at 10; the label stays on its bytes. */
#include <ruszvedok.h>
#include <stdio.h>

static void show(const ruszvedok_recording *row)
{
    static const char *const format[] = {"{%.*s:", "%.*s}", "%.*s", "%.*s"}; /* push, pop, raw, data */
    ruszvedok_cursor at = {0, 0};
    ruszvedok_part part;
    while (ruszvedok_next(ruszvedok_view_of(row), &at, &part))
        printf(format[part.kind], (int)part.len, (const char *)part.bytes);
    printf("\n");
}

int main(void)
{
    RUSZVEDOK_RECORDING(row, 64, 4, 16); /* room for 64 bytes, 4 entries, 16 bytes of labels */
    RUSZVEDOK_RECORDING(out, 64, 4, 16);
    uint32_t lines[4 * RUSZVEDOK_LINE_NUMBERS];

    ruszvedok_string_to(&row, "oak 12 ft ");
    ruszvedok_labeled_to(&row, "grade", "No. 1 Common");

    if (ruszvedok_write_truncated_end_to(&out, ruszvedok_view_of(&row), ruszvedok_plain(".."), 18).refusal == 0)
        show(&out);
    if (ruszvedok_write_wrapped_to(&out, ruszvedok_view_of(&row), 10, false, lines, 4 * RUSZVEDOK_LINE_NUMBERS).refusal == 0)
        show(&out);
    return 0;
}
