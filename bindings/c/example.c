/* A board row, recorded with its grades as labels, then truncated, padded and wrapped, by calls of their own and as a list of
 * calls; each result is printed with its labels, and the wrapped lines once more, right-aligned. Two rows of a ticket, whose tabs
 * go to stops; they are indented, and the indent is taken off. A row with a price, as the office and as the floor reads it. A line
 * index of the ticket, extended after a row. Cells of a page, cut in one call. A tally sheet. Plain C11, and C++ as well. */
#include "ruszvedok.h"

#include <stdio.h>
#include <stdlib.h>

/* The answer's number; ends the program if the call was refused. */
static unsigned number(ruszvedok_answer answer)
{
    if (answer.refusal != 0) {
        fprintf(stderr, "%s (refusal %u)\n", ruszvedok_refusal_reason(answer.refusal), (unsigned)answer.refusal);
        exit(1);
    }
    return (unsigned)answer.number;
}

/* Prints the data with {label:..} around what is labelled. */
static void print(const char *title, unsigned width, ruszvedok_view row)
{
    ruszvedok_cursor at = {0, 0};
    ruszvedok_part part;
    printf("%s %u:\n", title, width);
    while (ruszvedok_next(row, &at, &part)) {
        if (part.kind == RUSZVEDOK_KIND_PUSH_LABEL)
            printf("{%.*s:", (int)part.len, (const char *)part.bytes);
        else if (part.kind == RUSZVEDOK_KIND_POP_LABEL)
            printf("}");
        else if (part.kind == RUSZVEDOK_KIND_DATA)
            fwrite(part.bytes, 1, part.len, stdout);
    }
    printf("\n");
}

/* Prints the lines of a line list at the right of some columns: each has its place in the row and its width, so nothing is measured
 * again. */
static void print_right(unsigned columns, const uint32_t *lines, unsigned count, ruszvedok_view row)
{
    const uint32_t *line = lines, *end = lines + count * RUSZVEDOK_LINE_NUMBERS;
    printf("right-aligned in %u:\n", columns);
    for (; line < end; line += RUSZVEDOK_LINE_NUMBERS) {
        uint32_t width = line[RUSZVEDOK_LINE_WIDTH], first = line[RUSZVEDOK_LINE_FIRST];
        printf("%*s%.*s\n", width < columns ? (int)(columns - width) : 0, "", (int)(line[RUSZVEDOK_LINE_END] - first),
            (const char *)row.data + first);
    }
}

/* Prints the cells of a list of cells in columns: each has its end in the joined data and its width, so nothing is measured again. */
static void print_cells(unsigned columns, const uint32_t *cells, unsigned count, const uint8_t *joined)
{
    const uint32_t *cell = cells, *end = cells + count * RUSZVEDOK_CELL_NUMBERS;
    uint32_t first = 0;
    printf("%u cells cut to %u:\n|", count, columns);
    for (; cell < end; cell += RUSZVEDOK_CELL_NUMBERS) {
        printf("%.*s%*s|", (int)(cell[RUSZVEDOK_CELL_END] - first), (const char *)joined + first,
            (int)(columns - cell[RUSZVEDOK_CELL_WIDTH]), "");
        first = cell[RUSZVEDOK_CELL_END];
    }
    printf("\n");
}

int main(void)
{
    static const char page[] = "oakred spruce\xE6\x9C\xA8\xE6\x9D\x90";
    static const uint32_t ends[] = {3, 13, 19};
    static const char boards[] = "wood,boards,length\noak,12,9 ft\nwhite spruce,7,12 ft\n\xE6\x9C\xA8\xE6\x9D\x90,30,9 ft\n";
    static const uint32_t columns[] = {8, RUSZVEDOK_ALIGN_START, 6, RUSZVEDOK_ALIGN_END, 7, RUSZVEDOK_ALIGN_CENTER};
    RUSZVEDOK_RECORDING(row, 128, 8, 64);
    RUSZVEDOK_RECORDING(rest, 16, 2, 16);
    RUSZVEDOK_RECORDING(ticket, 64, 4, 16);
    RUSZVEDOK_RECORDING(priced, 32, 2, 8);
    RUSZVEDOK_RECORDING(out, 256, 16, 128);
    RUSZVEDOK_RECORDING(other, 256, 16, 128);
    RUSZVEDOK_CALLS(list, 3, 16, 16);
    RUSZVEDOK_LINE_STARTS(index, 8);
    RUSZVEDOK_RECORDING(few, 8, 16, 128);
    uint32_t lines[16 * RUSZVEDOK_LINE_NUMBERS], cells[3 * RUSZVEDOK_CELL_NUMBERS];
    uint64_t res[5];
    ruszvedok_call_answer answers[3];
    ruszvedok_answer answer;
    ruszvedok_line line;
    ruszvedok_line_column at;
    ruszvedok_view content, ellipsis;
    size_t k, untouched = 0;

    number(ruszvedok_string_to(&row, "oak 12 ft "));
    number(ruszvedok_labeled_to(&row, "grade", "FAS"));
    number(ruszvedok_string_to(&row, ", \xE6\x9C\xA8\xE6\x9D\x90 9 ft "));
    number(ruszvedok_labeled_to(&row, "grade", "No. 1 Common"));
    number(ruszvedok_labeled_to(&rest, "rest", ".."));
    content = ruszvedok_view_of(&row);
    ellipsis = ruszvedok_view_of(&rest);
    print("row, width", (unsigned)ruszvedok_text_width(content.data, content.data_len), content);

    answer = ruszvedok_write_truncated_end_to(&out, content, ellipsis, 18);
    print("truncated, width", number(answer), ruszvedok_view_of(&out));
    answer = ruszvedok_write_truncated_start_to(&out, content, ellipsis, 18);
    print("truncated at its start, width", number(answer), ruszvedok_view_of(&out));
    number(ruszvedok_write_padded_centered_to(&out, content, ruszvedok_plain("."), 44));
    print("centered in", 44, ruszvedok_view_of(&out));
    answer = ruszvedok_write_wrapped_to(&out, content, 12, false, lines, sizeof lines / sizeof lines[0]);
    print("wrapped at 12, lines", number(answer), ruszvedok_view_of(&out));
    print_right(12, lines, number(answer), content);

    /* A list of calls, each on what the one before left: it goes back and forth between two sets of buffers, from `out` to `out`. */
    if (!ruszvedok_add_call(&list, RUSZVEDOK_CALL_TRUNCATE_END, 18, ellipsis)
        || !ruszvedok_add_call(&list, RUSZVEDOK_CALL_PAD_CENTERED, 24, ruszvedok_plain("."))
        || !ruszvedok_add_call(&list, RUSZVEDOK_CALL_WRAP, 12, ruszvedok_plain("")))
        return 1;
    number(ruszvedok_replay_to(&out, content));
    answer = ruszvedok_run_calls_to(&out, &other, &list, lines, sizeof lines / sizeof lines[0], answers, 3);
    print("truncated, centered and wrapped, calls", number(answer), ruszvedok_view_of(&out));

    /* Columns count widths, so the second row lines up with the first. */
    number(ruszvedok_string_to(&ticket, "oak\t12 ft"));
    number(ruszvedok_labeled_to(&ticket, "grade", "\tFAS"));
    number(ruszvedok_string_to(&ticket, "\n\xE6\x9C\xA8\xE6\x9D\x90\t9 ft"));
    number(ruszvedok_labeled_to(&ticket, "grade", "\tNo. 1"));
    number(ruszvedok_write_tabs_expanded_to(&out, ruszvedok_view_of(&ticket), 8));
    print("stops every", 8, ruszvedok_view_of(&out));

    /* A report has a mark before each row, and what is pasted back from it loses the mark. */
    number(ruszvedok_write_indented_to(&other, ruszvedok_view_of(&out), ruszvedok_plain("> ")));
    print("indented by", 2, ruszvedok_view_of(&other));
    number(ruszvedok_write_unindented_to(&out, ruszvedok_view_of(&other), ruszvedok_plain("> ")));
    print("taken off again,", 2, ruszvedok_view_of(&out));

    /* Both read as many columns; what stands under the label is the office's alone. */
    number(ruszvedok_string_to(&priced, "oak 12 ft "));
    number(ruszvedok_labeled_to(&priced, "price", "980 \xE5\x86\x86"));
    number(ruszvedok_write_for_office_to(&out, ruszvedok_view_of(&priced), (const uint8_t *)"price", 5));
    print("for the office, width", (unsigned)ruszvedok_text_width(out.data, out.data_len), ruszvedok_view_of(&out));
    number(ruszvedok_write_for_floor_to(&out, ruszvedok_view_of(&priced), (const uint8_t *)"price", 5));
    print("for the floor, width", (unsigned)ruszvedok_text_width(out.data, out.data_len), ruszvedok_view_of(&out));

    /* A console jumps to a row, and shows the row of a byte. The index is kept beside the data and extended after an append. */
    number(ruszvedok_build_line_index_to(&index, ruszvedok_view_of(&ticket)));
    number(ruszvedok_string_to(&ticket, "\nfir\t16 ft"));
    answer = ruszvedok_extend_line_index_to(&index, ruszvedok_view_of(&ticket));
    line = ruszvedok_line_at_in(&index, ruszvedok_view_of(&ticket), 2);
    at = ruszvedok_place_of_in(&index, ruszvedok_view_of(&ticket), 20);
    if (line.refusal != 0 || at.refusal != 0)
        return 1;
    printf("line 2 of %u: bytes %u to %u\n", number(answer), (unsigned)line.first, (unsigned)line.end);
    printf("byte 20: line %u, byte column %u\n", (unsigned)at.line, (unsigned)at.column);

    /* A page of cells, one behind the other in one buffer: all are cut by one call. */
    ruszvedok_write_truncated_cells((const uint8_t *)page, sizeof page - 1, ends, 3, (const uint8_t *)"..", 2, 8, out.data, out.data_room,
        cells, sizeof cells / sizeof cells[0], res);
    print_cells(8, cells, number(ruszvedok_answer_of(res)), out.data);

    /* A tally sheet: a row for each line, then the number of value lines and the sum of the column `boards`. */
    ruszvedok_write_tally((const uint8_t *)boards, sizeof boards - 1, columns, sizeof columns / sizeof columns[0], out.data, out.data_room, res);
    number(ruszvedok_answer_of(res));
    printf("a tally sheet:\n%.*s", (int)res[RUSZVEDOK_RES_DATA], (const char *)out.data);

    /* Eight bytes are too few for the result: the call is refused and leaves them alone. */
    memset(few_data, 0xEE, sizeof few_data);
    answer = ruszvedok_write_truncated_end_to(&few, content, ellipsis, 18);
    for (k = 0; k < sizeof few_data; k++)
        untouched += few_data[k] == 0xEE;
    printf("a buffer of %u bytes: %s (refusal %u), %u bytes untouched\n", (unsigned)sizeof few_data,
        ruszvedok_refusal_reason(answer.refusal), (unsigned)answer.refusal, (unsigned)untouched);
    return 0;
}
