/* Every function of the header once or more: document 01's cases C1 to C16, a refusal of each kind that lengths can give, and the
 * calls over structs; lists of calls; a line index; a page of cells; a tally sheet. */
#include "ruszvedok.h"

#include <stdio.h>
#include <string.h>

#define COUNT(array) (sizeof(array) / sizeof((array)[0]))
#define BYTES(literal) (const uint8_t *)(literal), sizeof(literal) - 1
/* A recording of data alone, and the buffers that all calls below write to. */
#define PLAIN(literal) BYTES(literal), entries, 0, text, 0
#define BUFFERS data, COUNT(data), entries, COUNT(entries), text, COUNT(text)

static uint8_t data[64], text[16];
static uint32_t entries[32], lines[16];
static uint64_t res[5];
static int failed;

static void expect(const char *what, int holds)
{
    if (!holds) {
        printf("failed: %s\n", what);
        failed = 1;
    }
}

/* The answer: no refusal, this data, this number. */
static void left(const char *what, const char *bytes, uint64_t number)
{
    size_t len = strlen(bytes);
    expect(what, res[RUSZVEDOK_RES_REFUSAL] == 0 && res[RUSZVEDOK_RES_DATA] == len && memcmp(data, bytes, len) == 0);
    expect(what, data[len] == 0xEE && res[RUSZVEDOK_RES_NUMBER] == number);
    memset(data, 0xEE, sizeof data);
}

static void refused(const char *what, uint64_t refusal)
{
    size_t k;
    expect(what, res[0] == refusal && (res[1] | res[2] | res[3] | res[4]) == 0);
    for (k = 0; k < COUNT(data); k++)
        expect(what, data[k] == 0xEE);
}

/* Lines as three numbers each: first byte, end and width. */
static void listed(const char *what, const uint32_t *wanted, size_t count)
{
    expect(what, res[RUSZVEDOK_RES_REFUSAL] == 0 && res[RUSZVEDOK_RES_NUMBER] * RUSZVEDOK_LINE_NUMBERS == count);
    expect(what, memcmp(lines, wanted, count * sizeof lines[0]) == 0);
}

#define LINES(what, literal, width, break_words, ...) \
    do { \
        const uint32_t wanted[] = {__VA_ARGS__}; \
        ruszvedok_wrap_bytes(BYTES(literal), width, break_words, lines, COUNT(lines), res); \
        listed(what, wanted, COUNT(wanted)); \
    } while (0)

static void texts(void)
{
    ruszvedok_place end = ruszvedok_truncate_end_pos(BYTES("\xE6\x9C" "A"), 1), start = ruszvedok_truncate_start_pos(BYTES("\xE6\x9C" "A"), 1);
    expect("C8", ruszvedok_text_width(BYTES("\xE6\x9C" "A")) == 2);
    expect("end cut", end.pos == 2 && end.width == 1);
    expect("start cut", start.pos == 2 && start.width == 1);
    expect("zero-width", ruszvedok_zero_width_len(BYTES("\t\xCC\x81" "a")) == 3);
    expect("well-formed", ruszvedok_well_formed(BYTES("\xE6\x9C\xA8")) && !ruszvedok_well_formed(BYTES("\xE6\x9C")));
}

static void wrapping(void)
{
    LINES("C1", "oak 12 ft b", 5, false, 0, 3, 3, 4, 9, 5, 10, 11, 1);
    LINES("C2", "", 5, false, 0, 0, 0);
    LINES("C3", "ab\n", 5, false, 0, 2, 2, 3, 3, 0);
    LINES("C4", "   ab", 2, false, 0, 0, 0, 3, 5, 2);
    LINES("C5", "abcde", 2, true, 0, 2, 2, 2, 4, 2, 4, 5, 1);
    LINES("C5 unbroken", "abcde", 2, false, 0, 5, 5);
    LINES("C6", "ab c", 0, true, 0, 2, 2, 3, 4, 1);
    LINES("C7", "\xE6\x9C\xA8" "a", 1, true, 0, 3, 2, 3, 4, 1);
    LINES("spaces inside and behind", "a  b  ", 80, false, 0, 4, 4);
    ruszvedok_wrap_bytes(BYTES("ab c"), 0, true, lines, 2 * RUSZVEDOK_LINE_NUMBERS - 1, res);
    refused("line list", RUSZVEDOK_LINE_LIST_TOO_SHORT);
}

static void layout(void)
{
    const uint32_t replacements[] = {1, 3, 0, 1, 6, 6, 1, 2};
    ruszvedok_write_truncated_end(PLAIN("spruce"), PLAIN(".."), 4, BUFFERS, res);
    left("C9", "sp..", 4);
    ruszvedok_write_truncated_start(PLAIN("spruce"), PLAIN(".."), 4, BUFFERS, res);
    left("C10", "..ce", 4);
    ruszvedok_write_truncated_end(PLAIN("spruce"), PLAIN(".."), 1, BUFFERS, res);
    left("C11", ".", 1);
    ruszvedok_write_padded_centered(PLAIN("fir"), PLAIN("."), 6, BUFFERS, res);
    left("C12", ".fir..", 0);
    ruszvedok_write_padded_start(PLAIN("fir"), PLAIN("."), 6, BUFFERS, res);
    left("padded at its start", "...fir", 0);
    ruszvedok_write_padded_end(PLAIN("fir"), PLAIN("."), 6, BUFFERS, res);
    left("padded at its end", "fir...", 0);
    ruszvedok_write_indented(PLAIN("a\n\nb"), PLAIN("> "), BUFFERS, res);
    left("C13", "> a\n\n> b", 0);
    ruszvedok_write_unindented(PLAIN("> a\n\n> b\n> "), PLAIN("> "), BUFFERS, res);
    left("indent off", "a\n\nb\n", 0);
    ruszvedok_write_unindented(PLAIN("> a"), PLAIN("> "), data, 0, entries, COUNT(entries), text, COUNT(text), res);
    refused("indent off, data buffer", RUSZVEDOK_DATA_BUFFER_TOO_SHORT);
    ruszvedok_write_unindented(PLAIN("> a"), PLAIN("> a\n"), BUFFERS, res);
    refused("a prefix of two lines", RUSZVEDOK_PREFIX_NEWLINE);
    ruszvedok_write_unindented(PLAIN("> a\n>"), PLAIN("> "), BUFFERS, res);
    refused("a line without the prefix", RUSZVEDOK_PREFIX_MISSING);
    ruszvedok_write_replaced(PLAIN("abcdef"), replacements, COUNT(replacements), BYTES("XY"), BUFFERS, res);
    left("C14", "aXdefY", 0);
    /* columns 1, 0 and 6: the last one behind a character of width 2 */
    ruszvedok_write_tabs_expanded(PLAIN("a\tb\n\t\xE6\x9C\xA8\t|"), 4, BUFFERS, res);
    left("tabs", "a   b\n    \xE6\x9C\xA8  |", 0);
    ruszvedok_write_tabs_expanded(PLAIN("\t"), 64, data, 63, entries, COUNT(entries), text, COUNT(text), res);
    refused("tabs, data buffer", RUSZVEDOK_DATA_BUFFER_TOO_SHORT);
    ruszvedok_write_tabs_expanded(PLAIN("\t"), 0, BUFFERS, res);
    refused("no stops", RUSZVEDOK_TAB_STOP);
    ruszvedok_write_tabs_expanded(PLAIN("\t"), 65, BUFFERS, res);
    refused("stops too far apart", RUSZVEDOK_TAB_STOP);
    ruszvedok_write_for_office(PLAIN("oak"), BYTES("price"), BUFFERS, res);
    left("for the office", "oak", 0);
    ruszvedok_write_for_floor(PLAIN("oak"), BYTES("price"), BUFFERS, res);
    left("for the floor, nothing hidden", "oak", 0);
    ruszvedok_write_for_floor(PLAIN("oak"), BYTES(""), BUFFERS, res);
    refused("for the floor, no label", RUSZVEDOK_VIEW_LABEL);
    ruszvedok_write_for_office(PLAIN("oak"), BYTES("\xE6\x9C"), BUFFERS, res);
    refused("for the office, ill-formed label", RUSZVEDOK_VIEW_LABEL);
    ruszvedok_elide_end(BYTES("spruce"), BYTES(".."), 4, data, COUNT(data), res);
    left("C15", "sp..", 4);
    ruszvedok_elide_start(BYTES("spruce"), BYTES(".."), 4, data, COUNT(data), res);
    left("elided at its start", "..ce", 4);
    ruszvedok_complete_newline(BYTES("fir"), data, COUNT(data), res);
    left("newline", "fir\n", 0);
    ruszvedok_complete_newline(BYTES("fir"), data, 3, res);
    refused("data buffer", RUSZVEDOK_DATA_BUFFER_TOO_SHORT);
    ruszvedok_complete_newline(BYTES("\xFF"), data, COUNT(data), res);
    refused("ill-formed text", RUSZVEDOK_TEXT_ILL_FORMED);
}

/* C16, recorded by the adding calls, with a raw sequence at its end. */
static void labels(void)
{
    uint8_t row[8], row_text[4] = {0};
    uint32_t row_entries[12];
    const uint32_t wanted[] = {0, 0, 0, 1, 2, 1, 0, 0, 5, 2, 1, 2}, wanted_lines[] = {0, 2, 2, 3, 5, 2};
    memset(row, 0, sizeof row);
    memset(row_entries, 0, sizeof row_entries);
    ruszvedok_push_label(row, 8, 0, row_entries, 12, 0, row_text, 4, 0, BYTES("x"), res);
    ruszvedok_write(row, 8, res[1], row_entries, 12, res[2], row_text, 4, res[3], BYTES("ab"), res);
    ruszvedok_pop_label(row, 8, res[1], row_entries, 12, res[2], row_text, 4, res[3], res);
    ruszvedok_write(row, 8, res[1], row_entries, 12, res[2], row_text, 4, res[3], BYTES(" cd"), res);
    ruszvedok_raw(row, 8, res[1], row_entries, 12, res[2], row_text, 4, res[3], BYTES("\x1B["), res);
    expect("recorded", res[0] == 0 && res[1] == 5 && res[2] == 12 && res[3] == 3 && res[4] == 0);
    ruszvedok_write_wrapped(row, 5, row_entries, 12, row_text, 3, 2, false, BUFFERS, lines, COUNT(lines), res);
    expect("C16 entries", res[2] == 12 && memcmp(entries, wanted, sizeof wanted) == 0 && res[3] == 3 && memcmp(text, "x\x1B[", 3) == 0);
    expect("C16 lines", memcmp(lines, wanted_lines, sizeof wanted_lines) == 0);
    left("C16", "ab\ncd", 2);
    ruszvedok_replay(row, 5, row_entries, 12, row_text, 3, BUFFERS, res);
    left("replayed", "ab cd", 0);
    ruszvedok_replay(row, 5, row_entries, 12, row_text, 3, data, COUNT(data), entries, 11, text, COUNT(text), res);
    refused("entry buffer", RUSZVEDOK_ENTRY_BUFFER_TOO_SHORT);
    ruszvedok_replay(row, 5, row_entries, 12, row_text, 3, data, COUNT(data), entries, COUNT(entries), text, 2, res);
    refused("text buffer", RUSZVEDOK_TEXT_BUFFER_TOO_SHORT);
    ruszvedok_pop_label(row, 8, 9, row_entries, 12, 0, row_text, 4, 0, res);
    refused("length over its buffer", RUSZVEDOK_LENGTH_OVER_BUFFER);
}

/* What the office and the floor read of a row with a price: a wide character and a digit, a raw sequence among them. */
static void readers(void)
{
    const uint8_t row[] = "oak \xE6\x9C\xA8" "7\n", row_text[] = "price\x1B[";
    const uint32_t row_entries[] = {4, 0, 0, 5, 5, 2, 5, 2, 9, 1, 0, 0}, wanted[] = {4, 0, 0, 5, 8, 1, 0, 0};
    ruszvedok_write_for_office(row, 9, row_entries, 12, row_text, 7, BYTES("price"), BUFFERS, res);
    expect("office, entries", res[2] == 12 && memcmp(entries, row_entries, sizeof row_entries) == 0 && res[3] == 7 && memcmp(text, row_text, 7) == 0);
    left("office", (const char *)row, 0);
    ruszvedok_write_for_floor(row, 9, row_entries, 12, row_text, 7, BYTES("price"), BUFFERS, res);
    expect("floor, entries", res[2] == 8 && memcmp(entries, wanted, sizeof wanted) == 0 && res[3] == 5 && memcmp(text, "price", 5) == 0);
    left("floor", "oak ***\n", 0);
    ruszvedok_write_for_floor(row, 9, row_entries, 12, row_text, 7, BYTES("price"), data, 7, entries, COUNT(entries), text, COUNT(text), res);
    refused("floor, data buffer", RUSZVEDOK_DATA_BUFFER_TOO_SHORT);
    ruszvedok_write_for_floor(row, 9, row_entries, 8, row_text, 7, BYTES("price"), BUFFERS, res);
    refused("floor, a label stays open", RUSZVEDOK_CONTENT_UNBALANCED);
    ruszvedok_write_for_office(row, 9, row_entries + 8, 4, row_text, 7, BYTES("price"), BUFFERS, res);
    refused("office, a pop without a label", RUSZVEDOK_CONTENT_UNBALANCED);
}

/* A recording's data is this, after a call that was not refused and had this number. */
static void holds(const char *what, ruszvedok_answer answer, const ruszvedok_recording *row, const char *bytes, uint64_t number)
{
    expect(what, answer.refusal == 0 && answer.number == number && answer.data_len == row->data_len);
    expect(what, row->data_len == strlen(bytes) && memcmp(row->data, bytes, row->data_len) == 0);
}

/* The calls over structs. */
static void structs(void)
{
    const uint32_t replacements[] = {1, 3, 0, 1, 6, 6, 1, 2};
    ruszvedok_view row = ruszvedok_plain("spruce"), dots = ruszvedok_plain(".."), dot = ruszvedok_plain(".");
    RUSZVEDOK_RECORDING(out, 16, 4, 4);
    holds("C9, structs", ruszvedok_write_truncated_end_to(&out, row, dots, 4), &out, "sp..", 4);
    holds("C10, structs", ruszvedok_write_truncated_start_to(&out, row, dots, 4), &out, "..ce", 4);
    holds("padded at its start, structs", ruszvedok_write_padded_start_to(&out, row, dot, 8), &out, "..spruce", 0);
    holds("padded at its end, structs", ruszvedok_write_padded_end_to(&out, row, dot, 8), &out, "spruce..", 0);
    holds("padded around, structs", ruszvedok_write_padded_centered_to(&out, row, dot, 9), &out, ".spruce..", 0);
    holds("C13, structs", ruszvedok_write_indented_to(&out, ruszvedok_plain("a\n\nb"), ruszvedok_plain("> ")), &out, "> a\n\n> b", 0);
    holds("indent off, structs", ruszvedok_write_unindented_to(&out, ruszvedok_plain("> a\n\n> b"), ruszvedok_plain("> ")), &out, "a\n\nb", 0);
    holds("C14, structs", ruszvedok_write_replaced_to(&out, ruszvedok_plain("abcdef"), replacements, COUNT(replacements), BYTES("XY")),
        &out, "aXdefY", 0);
    holds("tabs, structs", ruszvedok_write_tabs_expanded_to(&out, ruszvedok_plain("ab\tc\t"), 4), &out, "ab  c   ", 0);
    holds("C1, structs", ruszvedok_write_wrapped_to(&out, ruszvedok_plain("oak 12 ft b"), 5, false, lines, COUNT(lines)), &out,
        "oak\n12 ft\nb", 3);
    expect("C1, its last line", lines[2 * RUSZVEDOK_LINE_NUMBERS + RUSZVEDOK_LINE_FIRST] == 10
            && lines[2 * RUSZVEDOK_LINE_NUMBERS + RUSZVEDOK_LINE_END] == 11
            && lines[2 * RUSZVEDOK_LINE_NUMBERS + RUSZVEDOK_LINE_WIDTH] == 1);
    holds("office, structs", ruszvedok_write_for_office_to(&out, row, BYTES("price")), &out, "spruce", 0);
    holds("floor, structs", ruszvedok_write_for_floor_to(&out, dots, BYTES("price")), &out, "..", 0);
    holds("replayed, structs", ruszvedok_replay_to(&out, row), &out, "spruce", 0);
    expect("refused, structs", ruszvedok_write_padded_end_to(&out, row, dot, 17).refusal == RUSZVEDOK_DATA_BUFFER_TOO_SHORT);
    expect("what it held", out.data_len == 6 && memcmp(out.data, "spruce", 6) == 0);
}

/* What each call of a list answered. */
static void answered(const char *what, const ruszvedok_call_answer *answers, size_t count, const uint64_t *wanted)
{
    expect(what, memcmp(answers, wanted, 2 * count * sizeof wanted[0]) == 0);
}

/* Lists of calls: every kind, refused ones among them, and what refuses a list. */
static void lists(void)
{
    const uint32_t numbers[] = {0, 1, 0, 1}, beyond[] = {90, 91, 0, 0};
    const uint64_t wanted[] = {31, 0, 0, 0, 0, 8, 0, 5, 0, 0, 0, 0, 0, 0, 8, 0, 0, 0, 0, 0, 33, 0, 0, 0, 0, 2, 0, 3};
    ruszvedok_view dots = ruszvedok_plain(".."), dot = ruszvedok_plain("."), none = ruszvedok_plain(""), mark = ruszvedok_plain("> ");
    ruszvedok_view records = {BYTES("X"), numbers, COUNT(numbers), (const uint8_t *)"", 0};
    ruszvedok_view bad = {BYTES(""), beyond, COUNT(beyond), (const uint8_t *)"", 0};
    ruszvedok_call_answer answers[14];
    RUSZVEDOK_RECORDING(row, 32, 4, 8);
    RUSZVEDOK_RECORDING(other, 32, 4, 8);
    RUSZVEDOK_CALLS(list, COUNT(answers), 16, 8);
    ruszvedok_string_to(&row, "red\tspruce");
    expect("list", ruszvedok_add_call(&list, RUSZVEDOK_CALL_EXPAND_TABS, 0, none)); /* refused */
    expect("list", ruszvedok_add_call(&list, RUSZVEDOK_CALL_EXPAND_TABS, 4, none)); /* "red spruce" */
    expect("list", ruszvedok_add_call(&list, RUSZVEDOK_CALL_TRUNCATE_END, 8, dots)); /* "red sp.." */
    expect("list", ruszvedok_add_call(&list, RUSZVEDOK_CALL_TRUNCATE_START, 5, dots)); /* "..p.." */
    expect("list", ruszvedok_add_call(&list, RUSZVEDOK_CALL_PAD_START, 6, dot)); /* "...p.." */
    expect("list", ruszvedok_add_call(&list, RUSZVEDOK_CALL_PAD_END, 7, dot)); /* "...p..." */
    expect("list", ruszvedok_add_call(&list, RUSZVEDOK_CALL_PAD_CENTERED, 10, dot)); /* "....p....." */
    expect("list", ruszvedok_add_call(&list, RUSZVEDOK_CALL_REPLACE, 0, bad)); /* refused */
    expect("list", ruszvedok_add_call(&list, RUSZVEDOK_CALL_REPLACE, 0, records)); /* "X...p....." */
    expect("list", ruszvedok_add_call(&list, RUSZVEDOK_CALL_INDENT, 0, ruszvedok_plain(">> "))); /* ">> X...p....." */
    expect("list", ruszvedok_add_call(&list, RUSZVEDOK_CALL_UNINDENT, 0, mark)); /* refused */
    expect("list", ruszvedok_add_call(&list, RUSZVEDOK_CALL_UNINDENT, 0, ruszvedok_plain(">"))); /* "> X...p....." */
    expect("list", ruszvedok_add_call(&list, RUSZVEDOK_CALL_WRAP, 5, none)); /* ">", "X...p....." */
    expect("list", !ruszvedok_add_call(&list, RUSZVEDOK_CALL_PAD_END, 5, ruszvedok_plain("too long for the pool")) && list.calls_len == 13);
    expect("list", ruszvedok_add_call(&list, RUSZVEDOK_CALL_WRAP_BREAKING, 5, none)); /* ">", "X...p", "....." */
    expect("list", !ruszvedok_add_call(&list, RUSZVEDOK_CALL_WRAP, 5, none) && list.calls_len == COUNT(answers));

    /* A list of answers that is too short: nothing is touched. */
    memset(answers, 0xEE, sizeof answers);
    expect("answers", ruszvedok_run_calls_to(&row, &other, &list, lines, COUNT(lines), answers, COUNT(answers) - 1).refusal
            == RUSZVEDOK_ANSWER_LIST_TOO_SHORT);
    expect("answers", row.data_len == 10 && memcmp(row.data, "red\tspruce", 10) == 0
            && answers[0].refusal == answers[COUNT(answers) - 1].number);
    other.data_room--;
    expect("sets", ruszvedok_run_calls_to(&row, &other, &list, lines, COUNT(lines), answers, COUNT(answers)).refusal == RUSZVEDOK_SETS_DIFFER);
    other.data_room++;
    holds("list, run", ruszvedok_run_calls_to(&row, &other, &list, lines, COUNT(lines), answers, COUNT(answers)), &row,
        ">\nX...p\n.....", COUNT(answers) - 3);
    answered("list, answers", answers, COUNT(answers), wanted);
}

/* What refuses a list by its numbers: calls that are no calls, a length. */
static void list_numbers(void)
{
    uint32_t call[RUSZVEDOK_CALL_SIZE] = {RUSZVEDOK_CALL_INDENT, 0, 0, 1, 0, 0, 1, 1};
    uint8_t other_data[64], other_text[16];
    uint32_t other_entries[32];
    uint64_t answers[2];
    size_t k;
#define RUN(numbers, used) \
    ruszvedok_run_calls(call, numbers, BYTES(">"), entries, 0, used, 0, 0, BUFFERS, other_data, COUNT(other_data), other_entries, \
        COUNT(other_entries), other_text, COUNT(other_text), lines, COUNT(lines), answers, COUNT(answers), res)
    RUN(7, 0);
    refused("no call", RUSZVEDOK_CALL_NUMBERS);
    RUN(8, 65);
    refused("used", RUSZVEDOK_LENGTH_OVER_BUFFER);
    for (k = 0; k < RUSZVEDOK_CALL_SIZE; k++)
        if (k != 1) { /* any width will do */
            uint32_t kept = call[k];
            call[k] = 11;
            RUN(8, 0);
            refused("a kind or a range", RUSZVEDOK_CALL_NUMBERS);
            call[k] = kept;
        }
    data[0] = 'a';
    RUN(8, 1);
    left("indented", ">a", 1);
    expect("its answer", answers[0] == 0 && answers[1] == 0);
#undef RUN
}

/* What the three numbers of a question are. */
static void replied(const char *what, const uint64_t *reply, uint64_t refusal, uint64_t first, uint64_t second)
{
    expect(what, reply[0] == refusal && reply[1] == first && reply[2] == second);
}

/* A list of line starts: how many there are by the answer, what they are, and that nothing is touched beyond them. */
static void starts(const char *what, const uint32_t *index, size_t room, uint32_t count)
{
    static const uint32_t wanted[] = {0, 2, 5};
    size_t k;
    expect(what, res[0] == 0 && (res[1] | res[2] | res[3]) == 0 && res[RUSZVEDOK_RES_NUMBER] == count);
    for (k = 0; k < room; k++)
        expect(what, index[k] == (k < count ? wanted[k] : 7));
}

/* A line index of "a", "bb" and an empty line: built, extended, asked, and what is refused. */
static void line_index(void)
{
    uint32_t index[4] = {7, 7, 7, 7};
    uint64_t reply[3] = {7, 7, 7};
    ruszvedok_build_line_index(PLAIN("a\nbb\n"), index, 2, res);
    refused("index, too short", RUSZVEDOK_LINE_INDEX);
    expect("index, too short", index[0] == 7 && index[1] == 7);
    ruszvedok_build_line_index(PLAIN(""), index, 4, res);
    starts("index of no data", index, 4, 1);
    ruszvedok_extend_line_index(PLAIN("a\nb"), 0, index, 4, 1, res);
    starts("index, extended", index, 4, 2);
    ruszvedok_extend_line_index(PLAIN("a\nbb\n"), 3, index, 2, 2, res);
    refused("index, too short to extend", RUSZVEDOK_LINE_INDEX);
    ruszvedok_extend_line_index(PLAIN("a\nbb\n"), 3, index, 4, 0, res);
    refused("index, nothing to extend", RUSZVEDOK_LINE_INDEX);
    ruszvedok_extend_line_index(PLAIN("a\nbb\n"), 3, index, 4, 5, res);
    refused("index, used above its length", RUSZVEDOK_LINE_INDEX);
    ruszvedok_extend_line_index(PLAIN("a\nbb\n"), 6, index, 4, 2, res);
    refused("index, earlier above the data's length", RUSZVEDOK_LINE_INDEX);
    ruszvedok_extend_line_index(PLAIN("a\nbb\n"), 1, index, 4, 2, res);
    refused("index, of other data", RUSZVEDOK_LINE_INDEX);
    expect("index, what it held", index[0] == 0 && index[1] == 2 && index[2] == 7 && index[3] == 7);
    ruszvedok_extend_line_index(PLAIN("a\nbb\n"), 3, index, 4, 2, res);
    starts("index, extended again", index, 4, 3);
    ruszvedok_build_line_index(PLAIN("a\nbb\n"), index, 3, res);
    starts("index, built", index, 4, 3);
#define LINE(content, count, n) (ruszvedok_line_at(PLAIN(content), index, count, n, reply), reply)
#define PLACE(content, count, offset) (ruszvedok_place_of(PLAIN(content), index, count, offset, reply), reply)
    replied("line 0", LINE("a\nbb\n", 3, 0), 0, 0, 1);
    replied("line 1", LINE("a\nbb\n", 3, 1), 0, 2, 4);
    replied("line 2", LINE("a\nbb\n", 3, 2), 0, 5, 5);
    replied("no line 3", LINE("a\nbb\n", 3, 3), RUSZVEDOK_NO_SUCH_PLACE, 0, 0);
    replied("line, index too long", LINE("a\nbb\n", 4, 3), RUSZVEDOK_LINE_INDEX, 0, 0);
    replied("line, of other data", LINE("a\nbb\n\n", 3, 0), RUSZVEDOK_LINE_INDEX, 0, 0);
    replied("offset 1, a 0A", PLACE("a\nbb\n", 3, 1), 0, 0, 1);
    replied("offset 2", PLACE("a\nbb\n", 3, 2), 0, 1, 0);
    replied("offset 4", PLACE("a\nbb\n", 3, 4), 0, 1, 2);
    replied("offset 5, the end", PLACE("a\nbb\n", 3, 5), 0, 2, 0);
    replied("no offset 6", PLACE("a\nbb\n", 3, 6), RUSZVEDOK_NO_SUCH_PLACE, 0, 0);
    replied("offset, index too short", PLACE("a\nbb\n", 2, 0), RUSZVEDOK_LINE_INDEX, 0, 0);
#undef LINE
#undef PLACE
    /* A content that is no recording comes first. */
    ruszvedok_line_at(BYTES("a"), entries, 3, text, 0, index, 0, 9, reply);
    replied("line, no recording", reply, RUSZVEDOK_ENTRY_NUMBERS, 0, 0);
    ruszvedok_build_line_index(BYTES("a"), entries, 3, text, 0, index, 0, res);
    refused("index, no recording", RUSZVEDOK_ENTRY_NUMBERS);
}

/* The same over structs. */
static void line_index_structs(void)
{
    ruszvedok_line line;
    ruszvedok_line_column at;
    RUSZVEDOK_RECORDING(rows, 16, 4, 4);
    RUSZVEDOK_LINE_STARTS(index, 3);
    RUSZVEDOK_LINE_STARTS(built, 3);
    line = ruszvedok_line_at_in(&index, ruszvedok_plain(""), 0);
    expect("no data, structs", line.refusal == 0 && line.first == 0 && line.end == 0);
    ruszvedok_string_to(&rows, "a\nb");
    expect("extended, structs", ruszvedok_extend_line_index_to(&index, ruszvedok_view_of(&rows)).number == 2 && index.data_len == 3);
    ruszvedok_labeled_to(&rows, "x", "b\n");
    expect("stale, structs", ruszvedok_line_at_in(&index, ruszvedok_view_of(&rows), 0).refusal == RUSZVEDOK_LINE_INDEX);
    expect("extended again, structs", ruszvedok_extend_line_index_to(&index, ruszvedok_view_of(&rows)).number == 3 && index.starts_len == 3);
    expect("built, structs", ruszvedok_build_line_index_to(&built, ruszvedok_view_of(&rows)).number == 3 && built.data_len == 5
            && memcmp(index_starts, built_starts, sizeof built_starts) == 0);
    line = ruszvedok_line_at_in(&built, ruszvedok_view_of(&rows), 1);
    expect("line, structs", line.refusal == 0 && line.first == 2 && line.end == 4);
    at = ruszvedok_place_of_in(&built, ruszvedok_view_of(&rows), 4);
    expect("place, structs", at.refusal == 0 && at.line == 1 && at.column == 2);
    expect("no place, structs", ruszvedok_place_of_in(&built, ruszvedok_view_of(&rows), 6).refusal == RUSZVEDOK_NO_SUCH_PLACE);
    ruszvedok_string_to(&rows, "\n");
    expect("no room, structs", ruszvedok_extend_line_index_to(&index, ruszvedok_view_of(&rows)).refusal == RUSZVEDOK_LINE_INDEX
            && index.starts_len == 3 && index.data_len == 5);
}

/* The list of cells that all calls below write to, and one call: its refusal, or the data and the list that it leaves. */
static uint32_t list[RUSZVEDOK_CELL_NUMBERS * (RUSZVEDOK_MAX_CELLS + 1)];

static void unlisted(const char *what, size_t from)
{
    for (; from < COUNT(list); from++)
        expect(what, list[from] == 7);
}

static void turned(const char *what, uint64_t refusal)
{
    refused(what, refusal);
    unlisted(what, 0);
}

/* End and width of each cell; the list is then as before the call. */
static void celled(const char *what, const char *bytes, const uint32_t *wanted, size_t count)
{
    size_t k;
    expect(what, (res[RUSZVEDOK_RES_ENTRIES] | res[RUSZVEDOK_RES_TEXT]) == 0);
    left(what, bytes, count);
    unlisted(what, RUSZVEDOK_CELL_NUMBERS * count);
    for (k = 0; k < RUSZVEDOK_CELL_NUMBERS * count; k++) {
        expect(what, list[k] == wanted[k]);
        list[k] = 7;
    }
}

/* "ab", "abcd" and "xy" in one call, other pages, and what is refused. */
static void cells(void)
{
    static const uint32_t ends[] = {2, 6, 8}, wanted[] = {2, 2, 5, 3, 7, 2}, falling[] = {6, 2, 8}, none[RUSZVEDOK_MAX_CELLS + 1] = {0};
    static const uint32_t some_empty[] = {0, 1, 1}, wanted_empty[] = {0, 0, 1, 1, 1, 0}, across[] = {1, 3}, wanted_across[] = {1, 1, 2, 1};
    static const uint32_t one[] = {6}, wanted_one[] = {3, 3};
    static uint8_t nuls[RUSZVEDOK_MAX_DATA + 1];
    size_t k;
    for (k = 0; k < COUNT(list); k++)
        list[k] = 7;
#define CUT(content, ends, count, ellipsis, width, bytes, numbers) \
    ruszvedok_write_truncated_cells(BYTES(content), ends, count, BYTES(ellipsis), width, data, bytes, list, numbers, res)
    CUT("ababcdxy", ends, 3, "~", 3, COUNT(data), COUNT(list));
    celled("cells", "abab~xy", wanted, 3);
    CUT("ababcdxy", ends, 3, "~", 3, 7, 6);
    celled("cells, exactly full", "abab~xy", wanted, 3);
    CUT("", ends, 0, "~", 3, 0, 0);
    celled("no cells", "", wanted, 0);
    CUT("a", some_empty, 3, "~", 3, 1, 6);
    celled("empty cells", "a", wanted_empty, 3);
    CUT("", none, RUSZVEDOK_MAX_CELLS, "~", 3, 0, RUSZVEDOK_CELL_NUMBERS * RUSZVEDOK_MAX_CELLS);
    expect("the most cells", res[0] == 0 && res[RUSZVEDOK_RES_NUMBER] == RUSZVEDOK_MAX_CELLS);
    for (k = 0; k < RUSZVEDOK_CELL_NUMBERS * RUSZVEDOK_MAX_CELLS; k++) {
        expect("the most cells", list[k] == 0);
        list[k] = 7;
    }
    /* each byte of a character across an end is ill-formed by itself */
    CUT("\xE6\x9C\xA8", across, 2, "~", 1, COUNT(data), COUNT(list));
    celled("a character across an end", "\xE6~", wanted_across, 2);
    /* the sum of the widths kept, though the bytes left join to a character of width 2 */
    CUT("\xE6xyzab", one, 1, "\x9C\xA8", 3, COUNT(data), COUNT(list));
    celled("an ellipsis that ends a character", "\xE6\x9C\xA8", wanted_one, 1);

    CUT("ababcdxy", ends, 3, "~", 3, 7, 5);
    turned("cells, list", RUSZVEDOK_LINE_LIST_TOO_SHORT);
    CUT("ababcdxy", ends, 3, "~", 3, 6, 5);
    turned("cells, data buffer", RUSZVEDOK_DATA_BUFFER_TOO_SHORT);
    CUT("ababcdxy", falling, 3, "~", 3, 6, 5);
    turned("cells, an end that falls", RUSZVEDOK_CELL_ENDS);
    CUT("ababcdx", ends, 3, "~", 3, COUNT(data), COUNT(list));
    turned("cells, a last end beyond the data", RUSZVEDOK_CELL_ENDS);
    CUT("ababcdxyz", ends, 3, "~", 3, COUNT(data), COUNT(list));
    turned("cells, a last end before the data's", RUSZVEDOK_CELL_ENDS);
    CUT("a", ends, 0, "~", 3, COUNT(data), COUNT(list));
    turned("no cells, but data", RUSZVEDOK_CELL_ENDS);
    CUT("", none, RUSZVEDOK_MAX_CELLS + 1, "~", 3, COUNT(data), COUNT(list));
    turned("too many cells", RUSZVEDOK_CELL_ENDS);
#undef CUT
    ruszvedok_write_truncated_cells(nuls, sizeof nuls, ends, 3, BYTES("~"), 3, data, 0, list, 0, res);
    turned("cells, data too long", RUSZVEDOK_DATA_TOO_LONG);
    ruszvedok_write_truncated_cells(BYTES("a"), ends, 3, nuls, sizeof nuls, 3, data, 0, list, 0, res);
    turned("cells, ellipsis too long", RUSZVEDOK_DATA_TOO_LONG);
    /* a NUL has no width, so all of them come behind the two letters that are left of the second cell; over the limit are all together */
    ruszvedok_write_truncated_cells(BYTES("ababcdxy"), ends, 3, nuls, RUSZVEDOK_MAX_DATA - 3, 2, data, 0, list, 0, res);
    turned("cells, result too long", RUSZVEDOK_RESULT_OVER_LIMIT);
}

/* A small sheet in full, other inputs, and what is refused. */
static void tally(void)
{
    static const uint32_t three[] = {5, RUSZVEDOK_ALIGN_START, 6, RUSZVEDOK_ALIGN_END, 4, RUSZVEDOK_ALIGN_CENTER};
    static const uint32_t one[] = {2, 0}, two[] = {7, 0, 1, 1}, no_width[] = {0, 0}, too_wide[] = {RUSZVEDOK_MAX_COLUMN_WIDTH + 1, 0}, aligned[] = {1, 3};
    static const char wood[] = "wood,boards,ft\noak,12,9\nspruce,7,16\n";
    static const char sheet[] = "wood  boards  ft \noak       12  9  \nspru~      7  16 \n2 19\n";
    static uint32_t most[RUSZVEDOK_COLUMN_NUMBERS * (RUSZVEDOK_MAX_COLUMNS + 1)];
    static uint8_t long_input[RUSZVEDOK_MAX_DATA + 1];
    size_t k;
#define TALLY(input, columns, bytes) ruszvedok_write_tally(BYTES(input), columns, COUNT(columns), data, bytes, res)
    TALLY(wood, three, COUNT(data));
    expect("a sheet", (res[RUSZVEDOK_RES_ENTRIES] | res[RUSZVEDOK_RES_TEXT]) == 0);
    left("a sheet", sheet, 0);
    TALLY(wood, three, sizeof sheet - 1);
    left("a sheet, exactly full", sheet, 0);
    ruszvedok_write_tally((const uint8_t *)wood, sizeof wood - 2, three, COUNT(three), data, COUNT(data), res);
    left("a sheet without its last 0A", sheet, 0);
    TALLY("", one, COUNT(data));
    left("an empty input", "  \n0 0\n", 0);
    TALLY("\n", one, COUNT(data));
    left("an empty line", "  \n0 0\n", 0);
    TALLY("\xE6\x9C\xA8\nabc\n\xE6\x9C\xA8\xE6\x9D\x90", one, COUNT(data));
    left("wide characters", "\xE6\x9C\xA8\na~\n~ \n2 0\n", 0);
    TALLY("boards,a\n65535,\n0,boards", two, COUNT(data));
    left("boards", "boards  a\n65535    \n0       ~\n2 65535\n", 0);

    TALLY(wood, three, sizeof sheet - 2);
    refused("a sheet, data buffer", RUSZVEDOK_DATA_BUFFER_TOO_SHORT);
    ruszvedok_write_tally(BYTES(wood), three, 0, data, COUNT(data), res);
    refused("no columns", RUSZVEDOK_TALLY_SHAPE);
    ruszvedok_write_tally(BYTES("a,b"), three, 3, data, COUNT(data), res);
    refused("a number left over", RUSZVEDOK_TALLY_SHAPE);
    TALLY("", no_width, COUNT(data));
    refused("no width", RUSZVEDOK_TALLY_SHAPE);
    TALLY("", too_wide, COUNT(data));
    refused("too wide", RUSZVEDOK_TALLY_SHAPE);
    TALLY("", aligned, COUNT(data));
    refused("another alignment", RUSZVEDOK_TALLY_SHAPE);
    for (k = 0; k < COUNT(most); k++)
        most[k] = k % RUSZVEDOK_COLUMN_NUMBERS == RUSZVEDOK_COLUMN_WIDTH ? 1 : RUSZVEDOK_ALIGN_START;
    TALLY(",,,,,,,,,,,,", most, COUNT(data));
    refused("too many columns", RUSZVEDOK_TALLY_SHAPE);
    ruszvedok_write_tally(BYTES(",,,,,,,,,,,"), most, RUSZVEDOK_COLUMN_NUMBERS * RUSZVEDOK_MAX_COLUMNS, data, COUNT(data), res);
    left("the most columns", "                       \n0 0\n", 0);
    memset(long_input, '\n', sizeof long_input);
    ruszvedok_write_tally(long_input, RUSZVEDOK_MAX_TALLY_LINES + 1, one, COUNT(one), data, COUNT(data), res);
    refused("too many lines", RUSZVEDOK_TALLY_SHAPE);
    ruszvedok_write_tally(long_input, RUSZVEDOK_MAX_TALLY_LINES, one, COUNT(one), data, COUNT(data), res);
    refused("the most lines, data buffer", RUSZVEDOK_DATA_BUFFER_TOO_SHORT);
    TALLY("a\r\n", one, COUNT(data));
    refused("a CR", RUSZVEDOK_TALLY_CELL);
    TALLY("\xC2\x9F", one, COUNT(data));
    refused("a control character of two bytes", RUSZVEDOK_TALLY_CELL);
    TALLY("a\n\xE6\x9C\n", one, COUNT(data));
    refused("an ill-formed cell", RUSZVEDOK_TALLY_CELL);
    TALLY("a\nb,c", one, COUNT(data));
    refused("a cell too many", RUSZVEDOK_TALLY_LINE);
    TALLY("a,b\nc", two, COUNT(data));
    refused("a cell too few", RUSZVEDOK_TALLY_LINE);
    TALLY("boards,a\n65536,b", two, COUNT(data));
    refused("too many boards", RUSZVEDOK_TALLY_LINE);
    TALLY("boards,a\n01,b", two, COUNT(data));
    refused("a leading zero", RUSZVEDOK_TALLY_LINE);
    /* 39 before 41 and 40; in a line 41 for its cells, 40, 41 for its boards; line by line; all before 21 */
    TALLY("\t,", no_width, 0);
    refused("39 first", RUSZVEDOK_TALLY_SHAPE);
    TALLY("\t,a", one, 0);
    refused("41 before 40", RUSZVEDOK_TALLY_LINE);
    TALLY("boards,a\nx,\t", two, 0);
    refused("40 before 41", RUSZVEDOK_TALLY_CELL);
    TALLY("boards,a\nx,b\n\t,c", two, 0);
    refused("41 of the line before", RUSZVEDOK_TALLY_LINE);
    TALLY("boards,\t\nx,b", two, 0);
    refused("40 of the line before", RUSZVEDOK_TALLY_CELL);
#undef TALLY
    ruszvedok_write_tally(long_input, sizeof long_input, no_width, COUNT(no_width), data, 0, res);
    refused("input too long", RUSZVEDOK_DATA_TOO_LONG);
    /* 2,000 rows of 12 columns are over the limit */
    for (k = 0; k < sizeof long_input; k++)
        long_input[k] = k % RUSZVEDOK_MAX_COLUMNS == RUSZVEDOK_MAX_COLUMNS - 1 ? '\n' : ',';
    for (k = 0; k < COUNT(most); k += RUSZVEDOK_COLUMN_NUMBERS)
        most[k + RUSZVEDOK_COLUMN_WIDTH] = RUSZVEDOK_MAX_COLUMN_WIDTH;
    ruszvedok_write_tally(long_input, 2000 * RUSZVEDOK_MAX_COLUMNS, most, RUSZVEDOK_COLUMN_NUMBERS * RUSZVEDOK_MAX_COLUMNS, data, 0, res);
    refused("a sheet over the limit", RUSZVEDOK_RESULT_OVER_LIMIT);
}

/* Adding over structs, and reading part by part. */
static void parts(void)
{
    static const enum ruszvedok_kind kinds[] = {RUSZVEDOK_KIND_DATA, RUSZVEDOK_KIND_PUSH_LABEL, RUSZVEDOK_KIND_DATA,
        RUSZVEDOK_KIND_POP_LABEL, RUSZVEDOK_KIND_RAW, RUSZVEDOK_KIND_DATA};
    static const char *const wanted[] = {"ab", "x", "cd", "", "\x1B[", "e"};
    RUSZVEDOK_RECORDING(row, 8, 4, 8);
    RUSZVEDOK_RECORDING(copy, 8, 4, 8);
    RUSZVEDOK_RECORDING(twice, 8, 5, 1);
    RUSZVEDOK_RECORDING(filled, 8, 8, 1);
    ruszvedok_cursor at = {0, 0};
    ruszvedok_part part;
    size_t k;
    holds("added", ruszvedok_string_to(&row, "ab"), &row, "ab", 0);
    holds("labeled", ruszvedok_labeled_to(&row, "x", "cd"), &row, "abcd", 0);
    holds("raw", ruszvedok_raw_to(&row, BYTES("\x1B[")), &row, "abcd", 0);
    holds("added again", ruszvedok_write_to(&row, BYTES("e")), &row, "abcde", 0);
    ruszvedok_replay_to(&copy, ruszvedok_view_of(&row));
    for (k = 0; ruszvedok_next(ruszvedok_view_of(&copy), &at, &part) && k < COUNT(kinds); k++)
        expect("part", part.kind == kinds[k] && part.len == strlen(wanted[k]) && memcmp(part.bytes, wanted[k], part.len) == 0);
    expect("all parts", k == COUNT(kinds) && !ruszvedok_next(ruszvedok_view_of(&copy), &at, &part));
    /* One entry is left: the label fits, its end does not, and nothing is added. */
    expect("whole or not at all", ruszvedok_labeled_to(&row, "y", "f").refusal == RUSZVEDOK_ENTRY_BUFFER_TOO_SHORT);
    holds("what it held", ruszvedok_pop_label_to(&row), &row, "abcde", 0);
    expect("entries", row.entries_len == 4 * RUSZVEDOK_ENTRY_SIZE && row.text_len == 3);
    /* An equal label takes the part of the first one, though the text is full; another has no room, and a raw sequence neither. */
    holds("a label", ruszvedok_labeled_to(&twice, "x", "a"), &twice, "a", 0);
    holds("the same again", ruszvedok_labeled_to(&twice, "x", "b"), &twice, "ab", 0);
    expect("stored once", twice.text_len == 1 && twice.entries_len == 4 * RUSZVEDOK_ENTRY_SIZE && twice.entries[10] == 0 && twice.entries[11] == 1);
    expect("another label", ruszvedok_push_label_to(&twice, BYTES("y")).refusal == RUSZVEDOK_TEXT_BUFFER_TOO_SHORT);
    expect("a raw sequence", ruszvedok_raw_to(&twice, BYTES("x")).refusal == RUSZVEDOK_TEXT_BUFFER_TOO_SHORT);
    holds("in a result too", ruszvedok_write_padded_end_to(&filled, ruszvedok_view_of(&twice), ruszvedok_view_of(&twice), 3), &filled, "abab", 0);
    expect("stored once in a result", filled.text_len == 1 && filled.entries_len == 8 * RUSZVEDOK_ENTRY_SIZE);
    expect("ill-formed label", ruszvedok_push_label_to(&row, BYTES("\xFF")).refusal == RUSZVEDOK_LABEL_ILL_FORMED);
}

static void names(void)
{
    expect("name", strcmp(ruszvedok_refusal_name(RUSZVEDOK_DATA_BUFFER_TOO_SHORT), "DATA_BUFFER_TOO_SHORT") == 0);
    expect("reason", strcmp(ruszvedok_refusal_reason(RUSZVEDOK_DATA_TOO_LONG), "data over its limit") == 0);
    expect("unknown", strcmp(ruszvedok_refusal_name(11), "UNKNOWN") == 0 && strcmp(ruszvedok_refusal_name(0), "NONE") == 0);
    expect("version", strlen(RUSZVEDOK_VERSION) >= 5 && RUSZVEDOK_VERSION_MAJOR == RUSZVEDOK_VERSION[0] - '0');
}

int main(void)
{
    memset(data, 0xEE, sizeof data);
    texts();
    wrapping();
    layout();
    labels();
    readers();
    structs();
    lists();
    list_numbers();
    line_index();
    line_index_structs();
    cells();
    tally();
    parts();
    names();
    return failed;
}
