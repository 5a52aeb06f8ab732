/* Ruszvedok: recorded text and its layout. Link with libruszvedok (`make install` in bindings/c), or with the archive itself.
 *
 * A slice is a pointer and its number of ELEMENTS (not bytes). Pointers are not null and aligned for their type, also where that
 * number is 0: the pointer is not read then, so any valid one will do. Where a call takes the used length of a buffer, `x_room` is
 * the buffer's number of elements and `x_len` how many of them are used.
 *
 * A recording is three slices:
 *   data     bytes, at most RUSZVEDOK_MAX_DATA; any bytes, read as UTF-8 with U+FFFD for each maximal ill-formed part
 *   entries  four numbers an entry: position in the data, kind, start and length of its part of the text; at most
 *            RUSZVEDOK_MAX_ENTRIES entries, positions never falling; a pop has start 0 and length 0
 *   text     the labels and raw sequences, at most RUSZVEDOK_MAX_TEXT bytes; labels are well-formed UTF-8
 *
 * A call on recordings takes its content, what else it reads, its numbers, and last the buffers that it writes. No buffer that is
 * written may overlap another argument. `res` gets five numbers, at the places RUSZVEDOK_RES_*:
 *   the refusal (0: none), data length, number of entry numbers, text length, and the call's number (a width or a count, or 0).
 * After a refusal the other four are 0 and every buffer holds what it held. Otherwise each buffer holds the result from its first
 * place on, and all beyond it is untouched. The texts of a result's entries lie one after another from 0, in entry order; equal labels
 * have one part, stored at the first of them, and each raw sequence has its own.
 * A question writes no buffer: its `res` gets three numbers, the refusal (0: none) and the two asked for, 0 after a refusal.
 *
 * No call allocates, keeps a pointer, or has a state of its own; calls over different buffers may run at the same time.
 *
 * The calls on recordings stand here twice: as the library exports them, and at the end, with _to behind the name, over the structs
 * ruszvedok_view (a recording that is read) and ruszvedok_recording (buffers that hold one), which are shorter to use. A whole list of
 * layout calls is made in one call by ruszvedok_run_calls_to: ruszvedok_add_call makes the list. A ruszvedok_line_index is built and
 * extended by functions with _to behind the name too, and asked by those with _in. */
#ifndef RUSZVEDOK_H
#define RUSZVEDOK_H

#include <stdbool.h>
#include <stddef.h>
#include <stdint.h>
#include <string.h>

#ifdef __cplusplus
extern "C" {
#endif

/* Kinds of entries. */
enum ruszvedok_kind {
    RUSZVEDOK_KIND_PUSH_LABEL = 0,
    RUSZVEDOK_KIND_POP_LABEL = 1,
    RUSZVEDOK_KIND_RAW = 2,
    RUSZVEDOK_KIND_DATA = 3 /* no entry: a piece of data between two, where a recording is read part by part */
};

/* The numbers of an entry, and the place of each among them. */
enum ruszvedok_entry {
    RUSZVEDOK_ENTRY_POSITION_AT = 0,
    RUSZVEDOK_ENTRY_KIND_AT = 1,
    RUSZVEDOK_ENTRY_START_AT = 2,
    RUSZVEDOK_ENTRY_LENGTH_AT = 3,
    RUSZVEDOK_ENTRY_SIZE = 4
};

/* Places in `res`. */
enum ruszvedok_res {
    RUSZVEDOK_RES_REFUSAL = 0,
    RUSZVEDOK_RES_DATA = 1,
    RUSZVEDOK_RES_ENTRIES = 2,
    RUSZVEDOK_RES_TEXT = 3,
    RUSZVEDOK_RES_NUMBER = 4
};

/* What a call answers: the five numbers of `res`. */
typedef struct ruszvedok_answer {
    uint64_t refusal;
    size_t data_len, entries_len, text_len;
    uint64_t number;
} ruszvedok_answer;

/* A recording that is read. */
typedef struct ruszvedok_view {
    const uint8_t *data;
    size_t data_len;
    const uint32_t *entries;
    size_t entries_len;
    const uint8_t *text;
    size_t text_len;
} ruszvedok_view;

/* Buffers that hold a recording: their numbers of elements, and how many of them are used. */
typedef struct ruszvedok_recording {
    uint8_t *data;
    size_t data_room, data_len;
    uint32_t *entries;
    size_t entries_room, entries_len;
    uint8_t *text;
    size_t text_room, text_len;
} ruszvedok_recording;

/* Declares a ruszvedok_recording `name`, empty, with room of its own: data bytes, entries, text bytes. */
#define RUSZVEDOK_RECORDING(name, data_bytes, entry_count, text_bytes) \
    uint8_t name##_data[data_bytes]; \
    uint32_t name##_entries[RUSZVEDOK_ENTRY_SIZE * (entry_count)]; \
    uint8_t name##_text[text_bytes]; \
    ruszvedok_recording name = {name##_data, data_bytes, 0, name##_entries, RUSZVEDOK_ENTRY_SIZE * (entry_count), 0, name##_text, text_bytes, 0}

/* The arguments that a view is where a call reads it, and a recording where a call writes it (LENT) or adds to it (USED). */
#define RUSZVEDOK_READ(view) (view).data, (view).data_len, (view).entries, (view).entries_len, (view).text, (view).text_len
#define RUSZVEDOK_LENT(out) (out)->data, (out)->data_room, (out)->entries, (out)->entries_room, (out)->text, (out)->text_room
#define RUSZVEDOK_USED(to) \
    (to)->data, (to)->data_room, (to)->data_len, (to)->entries, (to)->entries_room, (to)->entries_len, (to)->text, (to)->text_room, \
        (to)->text_len

/* What is used of a recording. */
static inline ruszvedok_view ruszvedok_view_of(const ruszvedok_recording *from)
{
    ruszvedok_view view = {from->data, from->data_len, from->entries, from->entries_len, from->text, from->text_len};
    return view;
}

/* A string without labels. */
static inline ruszvedok_view ruszvedok_plain(const char *string)
{
    static const uint32_t none[1] = {0};
    ruszvedok_view view = {(const uint8_t *)string, strlen(string), none, 0, (const uint8_t *)string, 0};
    return view;
}

/* The five numbers by their names. */
static inline ruszvedok_answer ruszvedok_answer_of(const uint64_t res[5])
{
    ruszvedok_answer answer = {
        res[RUSZVEDOK_RES_REFUSAL], (size_t)res[RUSZVEDOK_RES_DATA], (size_t)res[RUSZVEDOK_RES_ENTRIES], (size_t)res[RUSZVEDOK_RES_TEXT],
        res[RUSZVEDOK_RES_NUMBER]};
    return answer;
}

/* Takes over the lengths that a call left; after a refusal the recording is what it was. */
static inline ruszvedok_answer ruszvedok_take_over(ruszvedok_recording *out, const uint64_t res[5])
{
    ruszvedok_answer answer = ruszvedok_answer_of(res);
    if (answer.refusal == 0) {
        out->data_len = answer.data_len;
        out->entries_len = answer.entries_len;
        out->text_len = answer.text_len;
    }
    return answer;
}

/* A part of a recording: the label of a push, nothing for a pop, a raw sequence, or a piece of data. */
typedef struct ruszvedok_part {
    enum ruszvedok_kind kind;
    const uint8_t *bytes;
    size_t len;
} ruszvedok_part;

/* Where a recording is read: how much of data and entries is behind. All 0 at its start. */
typedef struct ruszvedok_cursor {
    size_t data, entries;
} ruszvedok_cursor;

/* The next part of a recording, which is one that the library made or did not refuse: false at its end. */
static inline bool ruszvedok_next(ruszvedok_view view, ruszvedok_cursor *at, ruszvedok_part *part)
{
    const uint32_t *entry = view.entries + at->entries;
    bool more = at->entries + RUSZVEDOK_ENTRY_SIZE <= view.entries_len;
    size_t end = more ? entry[RUSZVEDOK_ENTRY_POSITION_AT] : view.data_len;
    if (at->data < end) {
        part->kind = RUSZVEDOK_KIND_DATA;
        part->bytes = view.data + at->data;
        part->len = end - at->data;
        at->data = end;
        return true;
    }
    if (!more)
        return false;
    part->kind = (enum ruszvedok_kind)entry[RUSZVEDOK_ENTRY_KIND_AT];
    part->bytes = view.text + entry[RUSZVEDOK_ENTRY_START_AT];
    part->len = entry[RUSZVEDOK_ENTRY_LENGTH_AT];
    at->entries += RUSZVEDOK_ENTRY_SIZE;
    return true;
}

/* A layout call of a list, as its eight numbers: one of enum ruszvedok_call_kind, a width (max_width, min_width, or that of the
 * lines; of EXPAND_TABS its stop; not used by INDENT, UNINDENT and REPLACE), and start and end of three ranges. `data` and `text`
 * are ranges of the list's pool of bytes, `entries` is one of its pool of numbers: together the ellipsis, fill or prefix. Of
 * REPLACE, `data` is the new text and `entries` the records, four numbers each. WRAP, WRAP_BREAKING and EXPAND_TABS use none; ranges
 * that are not used have to be within their pools too. */
typedef struct ruszvedok_call {
    uint32_t kind, width;
    uint32_t data_start, data_end;
    uint32_t entries_start, entries_end;
    uint32_t text_start, text_end;
} ruszvedok_call;

/* What one call of a list answers: its refusal or 0, and its number. */
typedef struct ruszvedok_call_answer {
    uint64_t refusal, number;
} ruszvedok_call_answer;

enum { RUSZVEDOK_CALL_SIZE = 8, RUSZVEDOK_CALL_ANSWER_SIZE = 2 };
#ifdef __cplusplus
#define RUSZVEDOK_ASSERT static_assert
#else
#define RUSZVEDOK_ASSERT _Static_assert
#endif
RUSZVEDOK_ASSERT(sizeof(ruszvedok_call) == RUSZVEDOK_CALL_SIZE * sizeof(uint32_t), "a call is eight numbers");
RUSZVEDOK_ASSERT(sizeof(ruszvedok_call_answer) == RUSZVEDOK_CALL_ANSWER_SIZE * sizeof(uint64_t), "its answer is two");
#undef RUSZVEDOK_ASSERT

/* A list of calls with its pools: their numbers of elements, and how many of them are used. */
typedef struct ruszvedok_calls {
    ruszvedok_call *calls;
    size_t calls_room, calls_len;
    uint8_t *pool;
    size_t pool_room, pool_len;
    uint32_t *pool_numbers;
    size_t pool_numbers_room, pool_numbers_len;
} ruszvedok_calls;

/* Declares a ruszvedok_calls `name`, empty, with room of its own: calls, bytes and numbers of what they read beside the content. */
#define RUSZVEDOK_CALLS(name, call_count, byte_count, number_count) \
    ruszvedok_call name##_calls[call_count]; \
    uint8_t name##_pool[byte_count]; \
    uint32_t name##_pool_numbers[number_count]; \
    ruszvedok_calls name = {name##_calls, call_count, 0, name##_pool, byte_count, 0, name##_pool_numbers, number_count, 0}

/* A line index: the list of line starts, its number of elements, how many of them are used, and how long the data is that it is of. */
typedef struct ruszvedok_line_index {
    uint32_t *starts;
    size_t starts_room, starts_len, data_len;
} ruszvedok_line_index;

/* Declares a ruszvedok_line_index `name` with room of its own for so many lines, 1 at least: the index of no data, which is 0 alone. */
#define RUSZVEDOK_LINE_STARTS(name, line_count) \
    uint32_t name##_starts[line_count] = {0}; \
    ruszvedok_line_index name = {name##_starts, line_count, 1, 0}

/* Where a line is, or a refusal: its first byte, and its end. */
typedef struct ruszvedok_line {
    uint64_t refusal;
    size_t first, end;
} ruszvedok_line;

/* The line of an offset and its byte column there, or a refusal. */
typedef struct ruszvedok_line_column {
    uint64_t refusal;
    size_t line, column;
} ruszvedok_line_column;

/* ======== written by tools/declarations from the library's sources ======== */

/* The version of this header. */
#define RUSZVEDOK_VERSION "0.1.0"
#define RUSZVEDOK_VERSION_MAJOR 0
#define RUSZVEDOK_VERSION_MINOR 1
#define RUSZVEDOK_VERSION_PATCH 0

/* Limits of a recording; a longer input is refused by 1, 2 or 5, a longer result by 9. A plain text counts as data. */
#define RUSZVEDOK_MAX_DATA 1048576
#define RUSZVEDOK_MAX_ENTRIES 4096
#define RUSZVEDOK_MAX_ENTRY_NUMBERS 16384
#define RUSZVEDOK_MAX_TEXT 65536

/* A line of a line list: how many numbers it has, and the place of each among them. */
#define RUSZVEDOK_LINE_NUMBERS 3
#define RUSZVEDOK_LINE_FIRST 0
#define RUSZVEDOK_LINE_END 1
#define RUSZVEDOK_LINE_WIDTH 2

/* The most cells of one call. A cell of a list of cells: how many numbers it has, and the place of each among them. */
#define RUSZVEDOK_MAX_CELLS 64
#define RUSZVEDOK_CELL_NUMBERS 2
#define RUSZVEDOK_CELL_END 0
#define RUSZVEDOK_CELL_WIDTH 1

/* Limits of a tally sheet. A column of it: how many numbers it has, the place of each among them, and the alignments. */
#define RUSZVEDOK_MAX_TALLY_LINES 4096
#define RUSZVEDOK_MAX_COLUMNS 12
#define RUSZVEDOK_MAX_COLUMN_WIDTH 80
#define RUSZVEDOK_COLUMN_NUMBERS 2
#define RUSZVEDOK_COLUMN_WIDTH 0
#define RUSZVEDOK_COLUMN_ALIGNMENT 1
#define RUSZVEDOK_ALIGN_START 0
#define RUSZVEDOK_ALIGN_END 1
#define RUSZVEDOK_ALIGN_CENTER 2

/* Kinds of calls in a list: the first number of each. */
enum ruszvedok_call_kind {
    RUSZVEDOK_CALL_TRUNCATE_START = 0,
    RUSZVEDOK_CALL_TRUNCATE_END = 1,
    RUSZVEDOK_CALL_PAD_START = 2,
    RUSZVEDOK_CALL_PAD_END = 3,
    RUSZVEDOK_CALL_PAD_CENTERED = 4,
    RUSZVEDOK_CALL_INDENT = 5,
    RUSZVEDOK_CALL_WRAP = 6,
    RUSZVEDOK_CALL_WRAP_BREAKING = 7,
    RUSZVEDOK_CALL_REPLACE = 8,
    RUSZVEDOK_CALL_EXPAND_TABS = 9,
    RUSZVEDOK_CALL_UNINDENT = 10
};

/* Refusals. The first cause in this order is given: 10; the content, then the second recording, each 1, 2, 5 for its lengths and
 * then entry by entry 3, 4, 5, 6; a pushed label (6), an appended raw sequence (3); 7; 8; 31 to 39; 40 and 41 line by
 * line; 9; 21 to 24. Of a list of calls: 10; 61; 62; 63. */
enum ruszvedok_refusal {
    RUSZVEDOK_DATA_TOO_LONG = 1,           /* Data over its limit. */
    RUSZVEDOK_ENTRY_NUMBERS = 2,           /* Entry numbers that are not four an entry, or over their limit. */
    RUSZVEDOK_ENTRY_SHAPE = 3,             /* An unknown kind, a pop with a text, a raw sequence without one. */
    RUSZVEDOK_ENTRY_POSITION = 4,          /* A position that falls, or beyond the data. */
    RUSZVEDOK_TEXT_PART = 5,               /* Text over its limit, or a part that passes its end. */
    RUSZVEDOK_LABEL_ILL_FORMED = 6,        /* A label that is not well-formed UTF-8. */
    RUSZVEDOK_TEXT_ILL_FORMED = 7,         /* A plain text or ellipsis that is not well-formed UTF-8. */
    RUSZVEDOK_REPLACEMENT_RANGE = 8,       /* A replacement record out of order or out of range. */
    RUSZVEDOK_RESULT_OVER_LIMIT = 9,       /* A result over a limit of the recording. */
    RUSZVEDOK_LENGTH_OVER_BUFFER = 10,     /* A length above its buffer. */
    RUSZVEDOK_DATA_BUFFER_TOO_SHORT = 21,  /* The data buffer is too short for the result. */
    RUSZVEDOK_ENTRY_BUFFER_TOO_SHORT = 22, /* The entry buffer is too short for the result. */
    RUSZVEDOK_TEXT_BUFFER_TOO_SHORT = 23,  /* The text buffer is too short for the result. */
    RUSZVEDOK_LINE_LIST_TOO_SHORT = 24,    /* The line list, or the list of cells, is too short for the result. */
    RUSZVEDOK_TAB_STOP = 31,               /* A tab stop that is 0 or over 64. */
    RUSZVEDOK_PREFIX_NEWLINE = 32,         /* A prefix to be taken off that has a 0A. */
    RUSZVEDOK_PREFIX_MISSING = 33,         /* A line that is not empty and does not begin with the prefix to be taken off. */
    RUSZVEDOK_VIEW_LABEL = 34,             /* A reader's label that is empty or not well-formed UTF-8. */
    RUSZVEDOK_CONTENT_UNBALANCED = 35,     /* A content whose labels are not balanced. */
    RUSZVEDOK_LINE_INDEX = 36,             /* A line index that is too short for its numbers, or not that of the data. */
    RUSZVEDOK_NO_SUCH_PLACE = 37,          /* A line or an offset that is not there. */
    RUSZVEDOK_CELL_ENDS = 38,              /* Part ends of over 64 cells, that fall, or of which the last is not the data's length. */
    RUSZVEDOK_TALLY_SHAPE = 39,            /* Columns of a tally sheet outside their limits, or too many lines. */
    RUSZVEDOK_TALLY_CELL = 40,             /* A cell of a tally sheet that is not well-formed UTF-8, or has a control character. */
    RUSZVEDOK_TALLY_LINE = 41,             /* A line of a tally sheet with another number of cells than columns, or whose cell of boards is no number of them. */
    RUSZVEDOK_SETS_DIFFER = 61,            /* Two sets of buffers that differ in a length. */
    RUSZVEDOK_CALL_NUMBERS = 62,           /* Calls that are not eight numbers each, an unknown kind, a range not within its pool. */
    RUSZVEDOK_ANSWER_LIST_TOO_SHORT = 63   /* The list of answers is too short, at two numbers a call. */
};

/* The name of a refusal, as above without RUSZVEDOK_. */
static inline const char *ruszvedok_refusal_name(uint64_t refusal)
{
    switch (refusal) {
    case 0: return "NONE";
    case RUSZVEDOK_DATA_TOO_LONG: return "DATA_TOO_LONG";
    case RUSZVEDOK_ENTRY_NUMBERS: return "ENTRY_NUMBERS";
    case RUSZVEDOK_ENTRY_SHAPE: return "ENTRY_SHAPE";
    case RUSZVEDOK_ENTRY_POSITION: return "ENTRY_POSITION";
    case RUSZVEDOK_TEXT_PART: return "TEXT_PART";
    case RUSZVEDOK_LABEL_ILL_FORMED: return "LABEL_ILL_FORMED";
    case RUSZVEDOK_TEXT_ILL_FORMED: return "TEXT_ILL_FORMED";
    case RUSZVEDOK_REPLACEMENT_RANGE: return "REPLACEMENT_RANGE";
    case RUSZVEDOK_RESULT_OVER_LIMIT: return "RESULT_OVER_LIMIT";
    case RUSZVEDOK_LENGTH_OVER_BUFFER: return "LENGTH_OVER_BUFFER";
    case RUSZVEDOK_DATA_BUFFER_TOO_SHORT: return "DATA_BUFFER_TOO_SHORT";
    case RUSZVEDOK_ENTRY_BUFFER_TOO_SHORT: return "ENTRY_BUFFER_TOO_SHORT";
    case RUSZVEDOK_TEXT_BUFFER_TOO_SHORT: return "TEXT_BUFFER_TOO_SHORT";
    case RUSZVEDOK_LINE_LIST_TOO_SHORT: return "LINE_LIST_TOO_SHORT";
    case RUSZVEDOK_TAB_STOP: return "TAB_STOP";
    case RUSZVEDOK_PREFIX_NEWLINE: return "PREFIX_NEWLINE";
    case RUSZVEDOK_PREFIX_MISSING: return "PREFIX_MISSING";
    case RUSZVEDOK_VIEW_LABEL: return "VIEW_LABEL";
    case RUSZVEDOK_CONTENT_UNBALANCED: return "CONTENT_UNBALANCED";
    case RUSZVEDOK_LINE_INDEX: return "LINE_INDEX";
    case RUSZVEDOK_NO_SUCH_PLACE: return "NO_SUCH_PLACE";
    case RUSZVEDOK_CELL_ENDS: return "CELL_ENDS";
    case RUSZVEDOK_TALLY_SHAPE: return "TALLY_SHAPE";
    case RUSZVEDOK_TALLY_CELL: return "TALLY_CELL";
    case RUSZVEDOK_TALLY_LINE: return "TALLY_LINE";
    case RUSZVEDOK_SETS_DIFFER: return "SETS_DIFFER";
    case RUSZVEDOK_CALL_NUMBERS: return "CALL_NUMBERS";
    case RUSZVEDOK_ANSWER_LIST_TOO_SHORT: return "ANSWER_LIST_TOO_SHORT";
    default: return "UNKNOWN";
    }
}

/* Why a call was refused, in words. */
static inline const char *ruszvedok_refusal_reason(uint64_t refusal)
{
    switch (refusal) {
    case 0: return "not refused";
    case RUSZVEDOK_DATA_TOO_LONG: return "data over its limit";
    case RUSZVEDOK_ENTRY_NUMBERS: return "entry numbers that are not four an entry, or over their limit";
    case RUSZVEDOK_ENTRY_SHAPE: return "an unknown kind, a pop with a text, a raw sequence without one";
    case RUSZVEDOK_ENTRY_POSITION: return "a position that falls, or beyond the data";
    case RUSZVEDOK_TEXT_PART: return "text over its limit, or a part that passes its end";
    case RUSZVEDOK_LABEL_ILL_FORMED: return "a label that is not well-formed UTF-8";
    case RUSZVEDOK_TEXT_ILL_FORMED: return "a plain text or ellipsis that is not well-formed UTF-8";
    case RUSZVEDOK_REPLACEMENT_RANGE: return "a replacement record out of order or out of range";
    case RUSZVEDOK_RESULT_OVER_LIMIT: return "a result over a limit of the recording";
    case RUSZVEDOK_LENGTH_OVER_BUFFER: return "a length above its buffer";
    case RUSZVEDOK_DATA_BUFFER_TOO_SHORT: return "the data buffer is too short for the result";
    case RUSZVEDOK_ENTRY_BUFFER_TOO_SHORT: return "the entry buffer is too short for the result";
    case RUSZVEDOK_TEXT_BUFFER_TOO_SHORT: return "the text buffer is too short for the result";
    case RUSZVEDOK_LINE_LIST_TOO_SHORT: return "the line list, or the list of cells, is too short for the result";
    case RUSZVEDOK_TAB_STOP: return "a tab stop that is 0 or over 64";
    case RUSZVEDOK_PREFIX_NEWLINE: return "a prefix to be taken off that has a 0A";
    case RUSZVEDOK_PREFIX_MISSING: return "a line that is not empty and does not begin with the prefix to be taken off";
    case RUSZVEDOK_VIEW_LABEL: return "a reader's label that is empty or not well-formed UTF-8";
    case RUSZVEDOK_CONTENT_UNBALANCED: return "a content whose labels are not balanced";
    case RUSZVEDOK_LINE_INDEX: return "a line index that is too short for its numbers, or not that of the data";
    case RUSZVEDOK_NO_SUCH_PLACE: return "a line or an offset that is not there";
    case RUSZVEDOK_CELL_ENDS: return "part ends of over 64 cells, that fall, or of which the last is not the data's length";
    case RUSZVEDOK_TALLY_SHAPE: return "columns of a tally sheet outside their limits, or too many lines";
    case RUSZVEDOK_TALLY_CELL: return "a cell of a tally sheet that is not well-formed UTF-8, or has a control character";
    case RUSZVEDOK_TALLY_LINE: return "a line of a tally sheet with another number of cells than columns, or whose cell of boards is no number of them";
    case RUSZVEDOK_SETS_DIFFER: return "two sets of buffers that differ in a length";
    case RUSZVEDOK_CALL_NUMBERS: return "calls that are not eight numbers each, an unknown kind, a range not within its pool";
    case RUSZVEDOK_ANSWER_LIST_TOO_SHORT: return "the list of answers is too short, at two numbers a call";
    default: return "unknown reason";
    }
}

/* A place in a text, and the width of the part that is kept. */
typedef struct ruszvedok_place {
    size_t pos;
    uint64_t width;
} ruszvedok_place;

/* ---- texts of any bytes: no refusal ---- */

/* The width of a text. */
uint64_t ruszvedok_text_width(const uint8_t *s, size_t s_len);

/* Whether a text is well-formed UTF-8. */
bool ruszvedok_well_formed(const uint8_t *s, size_t s_len);

/* Where the longest beginning ends that is at most max wide, and its width. */
ruszvedok_place ruszvedok_truncate_end_pos(const uint8_t *s, size_t s_len, uint64_t max);

/* Where the longest ending starts that is at most max wide, and its width. */
ruszvedok_place ruszvedok_truncate_start_pos(const uint8_t *s, size_t s_len, uint64_t max);

/* How many bytes the leading zero-width characters of a text take. The text without them starts there. */
size_t ruszvedok_zero_width_len(const uint8_t *s, size_t s_len);

/* ---- recordings: `out_data`, `out_entries` and `out_text` are lent for the result ---- */

/* Copies a recording into three lent buffers; text that no entry uses is left out. */
void ruszvedok_replay(
    const uint8_t *content, size_t content_len, const uint32_t *entries, size_t entries_len, const uint8_t *text, size_t text_len,
    uint8_t *out_data, size_t out_data_len, uint32_t *out_entries, size_t out_entries_len, uint8_t *out_text, size_t out_text_len,
    uint64_t res[5]);

/* Cuts a content wider than max_width at its start and writes the ellipsis before it. The number is the width kept. Zero-width
 * characters that then lead ellipsis or content are removed, also when nothing was cut. */
void ruszvedok_write_truncated_start(
    const uint8_t *content, size_t content_len, const uint32_t *entries, size_t entries_len, const uint8_t *text, size_t text_len,
    const uint8_t *ellipsis, size_t ellipsis_len, const uint32_t *ellipsis_entries, size_t ellipsis_entries_len,
    const uint8_t *ellipsis_text, size_t ellipsis_text_len,
    uint32_t max_width,
    uint8_t *out_data, size_t out_data_len, uint32_t *out_entries, size_t out_entries_len, uint8_t *out_text, size_t out_text_len,
    uint64_t res[5]);

/* Cuts a content wider than max_width at its end and writes the ellipsis after it. The number is the width kept. */
void ruszvedok_write_truncated_end(
    const uint8_t *content, size_t content_len, const uint32_t *entries, size_t entries_len, const uint8_t *text, size_t text_len,
    const uint8_t *ellipsis, size_t ellipsis_len, const uint32_t *ellipsis_entries, size_t ellipsis_entries_len,
    const uint8_t *ellipsis_text, size_t ellipsis_text_len,
    uint32_t max_width,
    uint8_t *out_data, size_t out_data_len, uint32_t *out_entries, size_t out_entries_len, uint8_t *out_text, size_t out_text_len,
    uint64_t res[5]);

/* Writes the fill before a content that is narrower than min_width. The fill should be one character of width 1; each of its
 * pieces between entries is repeated by itself. */
void ruszvedok_write_padded_start(
    const uint8_t *content, size_t content_len, const uint32_t *entries, size_t entries_len, const uint8_t *text, size_t text_len,
    const uint8_t *fill, size_t fill_len, const uint32_t *fill_entries, size_t fill_entries_len,
    const uint8_t *fill_text, size_t fill_text_len,
    uint32_t min_width,
    uint8_t *out_data, size_t out_data_len, uint32_t *out_entries, size_t out_entries_len, uint8_t *out_text, size_t out_text_len,
    uint64_t res[5]);

/* Writes the fill behind a content that is narrower than min_width. The fill should be one character of width 1; each of its
 * pieces between entries is repeated by itself. */
void ruszvedok_write_padded_end(
    const uint8_t *content, size_t content_len, const uint32_t *entries, size_t entries_len, const uint8_t *text, size_t text_len,
    const uint8_t *fill, size_t fill_len, const uint32_t *fill_entries, size_t fill_entries_len,
    const uint8_t *fill_text, size_t fill_text_len,
    uint32_t min_width,
    uint8_t *out_data, size_t out_data_len, uint32_t *out_entries, size_t out_entries_len, uint8_t *out_text, size_t out_text_len,
    uint64_t res[5]);

/* Writes half of the fill, rounded down, before a content that is narrower than min_width and the rest behind it. The fill
 * should be one character of width 1; each of its pieces between entries is repeated by itself. */
void ruszvedok_write_padded_centered(
    const uint8_t *content, size_t content_len, const uint32_t *entries, size_t entries_len, const uint8_t *text, size_t text_len,
    const uint8_t *fill, size_t fill_len, const uint32_t *fill_entries, size_t fill_entries_len,
    const uint8_t *fill_text, size_t fill_text_len,
    uint32_t min_width,
    uint8_t *out_data, size_t out_data_len, uint32_t *out_entries, size_t out_entries_len, uint8_t *out_text, size_t out_text_len,
    uint64_t res[5]);

/* Writes the prefix before every line that is not empty. The prefix is under the labels of that line's first byte. */
void ruszvedok_write_indented(
    const uint8_t *content, size_t content_len, const uint32_t *entries, size_t entries_len, const uint8_t *text, size_t text_len,
    const uint8_t *prefix, size_t prefix_len, const uint32_t *prefix_entries, size_t prefix_entries_len,
    const uint8_t *prefix_text, size_t prefix_text_len,
    uint8_t *out_data, size_t out_data_len, uint32_t *out_entries, size_t out_entries_len, uint8_t *out_text, size_t out_text_len,
    uint64_t res[5]);

/* Takes the prefix's bytes out of every line that is not empty. The entries among them stay, before what is left of the line.
 * The prefix's own entries play no part. A prefix with a 0A is refused by 32, a line that is not empty and does not begin
 * with the prefix by 33. */
void ruszvedok_write_unindented(
    const uint8_t *content, size_t content_len, const uint32_t *entries, size_t entries_len, const uint8_t *text, size_t text_len,
    const uint8_t *prefix, size_t prefix_len, const uint32_t *prefix_entries, size_t prefix_entries_len,
    const uint8_t *prefix_text, size_t prefix_text_len,
    uint8_t *out_data, size_t out_data_len, uint32_t *out_entries, size_t out_entries_len, uint8_t *out_text, size_t out_text_len,
    uint64_t res[5]);

/* The lines of a text broken at the width, three numbers each: first byte, end and width. The number is how many. With
 * break_words also inside of words that are wider. A text of n bytes has at most n + 1 lines. The lengths in `res` are 0. */
void ruszvedok_wrap_bytes(
    const uint8_t *data, size_t data_len,
    uint32_t width, bool break_words,
    uint32_t *out_lines, size_t out_lines_len,
    uint64_t res[5]);

/* Writes a recording broken at the width. The number is how many lines. They are joined by 0A, and `out_lines` gets them as
 * ruszvedok_wrap_bytes lists them. */
void ruszvedok_write_wrapped(
    const uint8_t *content, size_t content_len, const uint32_t *entries, size_t entries_len, const uint8_t *text, size_t text_len,
    uint32_t width, bool break_words,
    uint8_t *out_data, size_t out_data_len, uint32_t *out_entries, size_t out_entries_len, uint8_t *out_text, size_t out_text_len,
    uint32_t *out_lines, size_t out_lines_len,
    uint64_t res[5]);

/* Writes the content with each record's stretch gone and its part of the replacement text in its stead; a record is four
 * numbers. These are start, end, from, to: the bytes start to end of the data go, the bytes from to `to` of new_text come in,
 * under the labels of the byte at start. Records are in order; fewer than four numbers at the end are none. */
void ruszvedok_write_replaced(
    const uint8_t *content, size_t content_len, const uint32_t *entries, size_t entries_len, const uint8_t *text, size_t text_len,
    const uint32_t *records, size_t records_len,
    const uint8_t *new_text, size_t new_text_len,
    uint8_t *out_data, size_t out_data_len, uint32_t *out_entries, size_t out_entries_len, uint8_t *out_text, size_t out_text_len,
    uint64_t res[5]);

/* Writes the content with each byte 09 replaced by spaces up to the next of the stops, which are `stop` columns apart, from 1 to
 * 64; the spaces carry the tab's labels. A tab becomes one space at least; its column is the width since the last 0A, with
 * the spaces of tabs before it. Another `stop` is refused by 31. */
void ruszvedok_write_tabs_expanded(
    const uint8_t *content, size_t content_len, const uint32_t *entries, size_t entries_len, const uint8_t *text, size_t text_len,
    uint32_t stop,
    uint8_t *out_data, size_t out_data_len, uint32_t *out_entries, size_t out_entries_len, uint8_t *out_text, size_t out_text_len,
    uint64_t res[5]);

/* ---- two readers of one recording, which no list of calls holds ---- */

/* Writes what the office reads of a recording: all of it, as replaying leaves it. `label` is the one that hides from the floor.
 * A label that is empty or ill-formed is refused by 34, a content whose labels are not balanced by 35. */
void ruszvedok_write_for_office(
    const uint8_t *content, size_t content_len, const uint32_t *entries, size_t entries_len, const uint8_t *text, size_t text_len,
    const uint8_t *label, size_t label_len,
    uint8_t *out_data, size_t out_data_len, uint32_t *out_entries, size_t out_entries_len, uint8_t *out_text, size_t out_text_len,
    uint64_t res[5]);

/* Writes what the floor reads of a recording: instead of each character with any byte under the label as many `*` as it is wide,
 * under the labels of its first byte, and no raw sequence that is placed under the label; 0A stays. A character of width 0 is
 * gone; an entry inside a character so replaced comes after its stars. The same is refused as for the office. */
void ruszvedok_write_for_floor(
    const uint8_t *content, size_t content_len, const uint32_t *entries, size_t entries_len, const uint8_t *text, size_t text_len,
    const uint8_t *label, size_t label_len,
    uint8_t *out_data, size_t out_data_len, uint32_t *out_entries, size_t out_entries_len, uint8_t *out_text, size_t out_text_len,
    uint64_t res[5]);

/* ---- a line index beside the data, which no list of calls holds: `index` is a list of line starts ---- */

/* Puts the line index of a recording's data into `index`: 0, and the place after each 0A. The number is how many lines there
 * are. Data of n bytes has at most n + 1 lines; a 0A belongs to the line that it ends. The lengths in `res` are 0. A list
 * that is too short is refused by 36. */
void ruszvedok_build_line_index(
    const uint8_t *content, size_t content_len, const uint32_t *entries, size_t entries_len, const uint8_t *text, size_t text_len,
    uint32_t *index, size_t index_len,
    uint64_t res[5]);

/* Makes a line index that of the data after an append: the first `used` numbers of `index` are that of the first `earlier`
 * bytes. The number is how many lines there are. It leaves what ruszvedok_build_line_index leaves for all the data. Refused
 * by 36: `used` above the list's length, `earlier` above the data's, numbers that are not that index (so `used` = 0 always),
 * a list too short for the result. */
void ruszvedok_extend_line_index(
    const uint8_t *content, size_t content_len, const uint32_t *entries, size_t entries_len, const uint8_t *text, size_t text_len,
    size_t earlier,
    uint32_t *index, size_t index_len,
    size_t used,
    uint64_t res[5]);

/* Where line n is, counted from 0: its first byte, and its end, which is the place of its 0A or the data's end. `index` is the
 * line index of the data. `res` gets three numbers: the refusal or 0, the first byte and the end. An `index` that is not
 * exactly the numbers of that index is refused by 36, then a line that is not there by 37. */
void ruszvedok_line_at(
    const uint8_t *content, size_t content_len, const uint32_t *entries, size_t entries_len, const uint8_t *text, size_t text_len,
    const uint32_t *index, size_t index_len,
    size_t n,
    uint64_t res[3]);

/* The line of an offset and its byte column there, both counted from 0. `index` is the line index of the data. `res` gets three
 * numbers: the refusal or 0, the line and the column. The offset may be the data length. Refused as ruszvedok_line_at is: by
 * 36, then an offset beyond the data by 37. */
void ruszvedok_place_of(
    const uint8_t *content, size_t content_len, const uint32_t *entries, size_t entries_len, const uint8_t *text, size_t text_len,
    const uint32_t *index, size_t index_len,
    size_t offset,
    uint64_t res[3]);

/* ---- a page of cells, which no list of calls holds: `ends` has the part ends, and `cells` is a list of cells ---- */

/* Cuts the parts of a content that end at `ends`, each to max_width at its end with the ellipsis, and joins them; `cells` gets
 * two numbers a cell, its end there and its width. The number is how many cells there are. Of each cell it leaves what
 * ruszvedok_write_truncated_end leaves of it alone, and lists the width that that returns. A cell starts at the end before
 * it, the first one at 0. Refused by 38: more than RUSZVEDOK_MAX_CELLS ends, ends that fall, a last end (0 without cells)
 * that is not content_len; by 24 a `cells` that is too short. content_len + ends_len * ellipsis_len bytes are always enough. */
void ruszvedok_write_truncated_cells(
    const uint8_t *content, size_t content_len,
    const uint32_t *ends, size_t ends_len,
    const uint8_t *ellipsis, size_t ellipsis_len,
    uint32_t max_width,
    uint8_t *out_data, size_t out_data_len, uint32_t *cells, size_t cells_len,
    uint64_t res[5]);

/* ---- a tally sheet, which no list of calls holds: `columns` has the numbers of the columns ---- */

/* Lays out a tally sheet: a line of names and lines of values with commas between, in columns of two numbers each, a width and
 * an alignment (0 start, 1 end, 2 centre). The first line has the names. A line ends with 0A, which the last may lack; an
 * empty input is one empty line. Each line is printed as a row: its cells are cut with the ellipsis `~` as
 * ruszvedok_write_truncated_end cuts them, filled with spaces to the widths of their columns, and joined by one space. The
 * last row has the number of value lines and the sum of the first column called `boards` (0 without one), with one space
 * between. Rows end with 0A. The last three numbers of `res` are 0. Refused by 39: columns_len that is odd, no or more than
 * RUSZVEDOK_MAX_COLUMNS columns, a width of 0 or over RUSZVEDOK_MAX_COLUMN_WIDTH, an unknown alignment, more than
 * RUSZVEDOK_MAX_TALLY_LINES lines. Then line by line: by 41 another number of cells than columns; by 40 a cell that is
 * ill-formed or has a control character (U+0000 to 001F, 007F to 009F); by 41, in a value line, a cell of that column that is
 * no decimal whole number up to 65535 without leading zeros. input_len + lines * widths + 16 bytes are always enough: one
 * line more than the input has 0A, and the sum of the columns' widths. */
void ruszvedok_write_tally(
    const uint8_t *input, size_t input_len,
    const uint32_t *columns, size_t columns_len,
    uint8_t *out_data, size_t out_data_len,
    uint64_t res[5]);

/* ---- a list of calls on recordings ---- */

/* Runs all layout calls of a list, back and forth between two sets of lent buffers. The number is how many were not refused. A
 * call is eight numbers, the fields of ruszvedok_call in their order; its ranges are of `pool` and `pool_numbers`. The
 * content is what the used lengths say of `data`, `entries` and `text`, and the result is left there. The other set has the
 * same lengths. Both sets beyond the result, and `out_lines`, hold what the calls left on the way. `answers` gets two numbers
 * a call: its refusal or 0, and its number. A refused call changes nothing, and the next one has the same content. The whole
 * list is refused by 10, 61, 62 and 63. */
void ruszvedok_run_calls(
    const uint32_t *calls, size_t calls_len,
    const uint8_t *pool, size_t pool_len,
    const uint32_t *pool_numbers, size_t pool_numbers_len,
    size_t data_len, size_t entries_len, size_t text_len,
    uint8_t *data, size_t data_room, uint32_t *entries, size_t entries_room, uint8_t *text, size_t text_room,
    uint8_t *other_data, size_t other_data_len, uint32_t *other_entries, size_t other_entries_len,
    uint8_t *other_text, size_t other_text_len,
    uint32_t *out_lines, size_t out_lines_len, uint64_t *answers, size_t answers_len,
    uint64_t res[5]);

/* ---- plain texts, well-formed UTF-8 (otherwise refusal 7): the result is in `out_data` ---- */

/* The text, shortened at its start to max_width with the ellipsis. The number is its width. */
void ruszvedok_elide_start(
    const uint8_t *text, size_t text_len,
    const uint8_t *ellipsis, size_t ellipsis_len,
    uint32_t max_width,
    uint8_t *out_data, size_t out_data_len,
    uint64_t res[5]);

/* The text, shortened at its end to max_width with the ellipsis. The number is its width. */
void ruszvedok_elide_end(
    const uint8_t *text, size_t text_len,
    const uint8_t *ellipsis, size_t ellipsis_len,
    uint32_t max_width,
    uint8_t *out_data, size_t out_data_len,
    uint64_t res[5]);

/* The text with 0A at its end, which is added unless the text is empty or ends in it. */
void ruszvedok_complete_newline(const uint8_t *text, size_t text_len, uint8_t *out_data, size_t out_data_len, uint64_t res[5]);

/* ---- the recorder: each call adds at the ends of the recording that the used lengths say; `res` has its new lengths ---- */

/* Appends bytes to the data of a recording, of whose buffers the lengths are used. */
void ruszvedok_write(
    uint8_t *content, size_t content_room, size_t content_len,
    const uint32_t *entries, size_t entries_room, size_t entries_len,
    const uint8_t *text, size_t text_room, size_t text_len,
    const uint8_t *added, size_t added_len,
    uint64_t res[5]);

/* Pushes a label, at the current end. Where the label was pushed before, the first such push's part of the text is taken and no
 * text is added. */
void ruszvedok_push_label(
    const uint8_t *content, size_t content_room, size_t content_len,
    uint32_t *entries, size_t entries_room, size_t entries_len,
    uint8_t *text, size_t text_room, size_t text_len,
    const uint8_t *label, size_t label_len,
    uint64_t res[5]);

/* A pop of the last label, at the current end. */
void ruszvedok_pop_label(
    const uint8_t *content, size_t content_room, size_t content_len,
    uint32_t *entries, size_t entries_room, size_t entries_len,
    const uint8_t *text, size_t text_room, size_t text_len,
    uint64_t res[5]);

/* Appends a raw sequence as one entry at the current end. An empty one is refused. */
void ruszvedok_raw(
    const uint8_t *content, size_t content_room, size_t content_len,
    uint32_t *entries, size_t entries_room, size_t entries_len,
    uint8_t *text, size_t text_room, size_t text_len,
    const uint8_t *sequence, size_t sequence_len,
    uint64_t res[5]);

/* ---- the calls on recordings over the structs: `out` is written, `to` is added to; its lengths are taken over ---- */

static inline ruszvedok_answer ruszvedok_replay_to(ruszvedok_recording *out, ruszvedok_view content)
{
    uint64_t res[5];
    ruszvedok_replay(RUSZVEDOK_READ(content), RUSZVEDOK_LENT(out), res);
    return ruszvedok_take_over(out, res);
}

static inline ruszvedok_answer ruszvedok_write_truncated_start_to(
    ruszvedok_recording *out, ruszvedok_view content, ruszvedok_view ellipsis, uint32_t max_width)
{
    uint64_t res[5];
    ruszvedok_write_truncated_start(RUSZVEDOK_READ(content), RUSZVEDOK_READ(ellipsis), max_width, RUSZVEDOK_LENT(out), res);
    return ruszvedok_take_over(out, res);
}

static inline ruszvedok_answer ruszvedok_write_truncated_end_to(
    ruszvedok_recording *out, ruszvedok_view content, ruszvedok_view ellipsis, uint32_t max_width)
{
    uint64_t res[5];
    ruszvedok_write_truncated_end(RUSZVEDOK_READ(content), RUSZVEDOK_READ(ellipsis), max_width, RUSZVEDOK_LENT(out), res);
    return ruszvedok_take_over(out, res);
}

static inline ruszvedok_answer ruszvedok_write_padded_start_to(
    ruszvedok_recording *out, ruszvedok_view content, ruszvedok_view fill, uint32_t min_width)
{
    uint64_t res[5];
    ruszvedok_write_padded_start(RUSZVEDOK_READ(content), RUSZVEDOK_READ(fill), min_width, RUSZVEDOK_LENT(out), res);
    return ruszvedok_take_over(out, res);
}

static inline ruszvedok_answer ruszvedok_write_padded_end_to(
    ruszvedok_recording *out, ruszvedok_view content, ruszvedok_view fill, uint32_t min_width)
{
    uint64_t res[5];
    ruszvedok_write_padded_end(RUSZVEDOK_READ(content), RUSZVEDOK_READ(fill), min_width, RUSZVEDOK_LENT(out), res);
    return ruszvedok_take_over(out, res);
}

static inline ruszvedok_answer ruszvedok_write_padded_centered_to(
    ruszvedok_recording *out, ruszvedok_view content, ruszvedok_view fill, uint32_t min_width)
{
    uint64_t res[5];
    ruszvedok_write_padded_centered(RUSZVEDOK_READ(content), RUSZVEDOK_READ(fill), min_width, RUSZVEDOK_LENT(out), res);
    return ruszvedok_take_over(out, res);
}

static inline ruszvedok_answer ruszvedok_write_indented_to(
    ruszvedok_recording *out, ruszvedok_view content, ruszvedok_view prefix)
{
    uint64_t res[5];
    ruszvedok_write_indented(RUSZVEDOK_READ(content), RUSZVEDOK_READ(prefix), RUSZVEDOK_LENT(out), res);
    return ruszvedok_take_over(out, res);
}

static inline ruszvedok_answer ruszvedok_write_unindented_to(
    ruszvedok_recording *out, ruszvedok_view content, ruszvedok_view prefix)
{
    uint64_t res[5];
    ruszvedok_write_unindented(RUSZVEDOK_READ(content), RUSZVEDOK_READ(prefix), RUSZVEDOK_LENT(out), res);
    return ruszvedok_take_over(out, res);
}

static inline ruszvedok_answer ruszvedok_write_wrapped_to(
    ruszvedok_recording *out, ruszvedok_view content, uint32_t width, bool break_words, uint32_t *out_lines, size_t out_lines_len)
{
    uint64_t res[5];
    ruszvedok_write_wrapped(RUSZVEDOK_READ(content), width, break_words, RUSZVEDOK_LENT(out), out_lines, out_lines_len, res);
    return ruszvedok_take_over(out, res);
}

static inline ruszvedok_answer ruszvedok_write_replaced_to(
    ruszvedok_recording *out, ruszvedok_view content, const uint32_t *records, size_t records_len, const uint8_t *new_text,
    size_t new_text_len)
{
    uint64_t res[5];
    ruszvedok_write_replaced(RUSZVEDOK_READ(content), records, records_len, new_text, new_text_len, RUSZVEDOK_LENT(out), res);
    return ruszvedok_take_over(out, res);
}

static inline ruszvedok_answer ruszvedok_write_tabs_expanded_to(ruszvedok_recording *out, ruszvedok_view content, uint32_t stop)
{
    uint64_t res[5];
    ruszvedok_write_tabs_expanded(RUSZVEDOK_READ(content), stop, RUSZVEDOK_LENT(out), res);
    return ruszvedok_take_over(out, res);
}

static inline ruszvedok_answer ruszvedok_write_for_office_to(
    ruszvedok_recording *out, ruszvedok_view content, const uint8_t *label, size_t label_len)
{
    uint64_t res[5];
    ruszvedok_write_for_office(RUSZVEDOK_READ(content), label, label_len, RUSZVEDOK_LENT(out), res);
    return ruszvedok_take_over(out, res);
}

static inline ruszvedok_answer ruszvedok_write_for_floor_to(
    ruszvedok_recording *out, ruszvedok_view content, const uint8_t *label, size_t label_len)
{
    uint64_t res[5];
    ruszvedok_write_for_floor(RUSZVEDOK_READ(content), label, label_len, RUSZVEDOK_LENT(out), res);
    return ruszvedok_take_over(out, res);
}

static inline ruszvedok_answer ruszvedok_write_to(ruszvedok_recording *to, const uint8_t *added, size_t added_len)
{
    uint64_t res[5];
    ruszvedok_write(RUSZVEDOK_USED(to), added, added_len, res);
    return ruszvedok_take_over(to, res);
}

static inline ruszvedok_answer ruszvedok_push_label_to(ruszvedok_recording *to, const uint8_t *label, size_t label_len)
{
    uint64_t res[5];
    ruszvedok_push_label(RUSZVEDOK_USED(to), label, label_len, res);
    return ruszvedok_take_over(to, res);
}

static inline ruszvedok_answer ruszvedok_pop_label_to(ruszvedok_recording *to)
{
    uint64_t res[5];
    ruszvedok_pop_label(RUSZVEDOK_USED(to), res);
    return ruszvedok_take_over(to, res);
}

static inline ruszvedok_answer ruszvedok_raw_to(ruszvedok_recording *to, const uint8_t *sequence, size_t sequence_len)
{
    uint64_t res[5];
    ruszvedok_raw(RUSZVEDOK_USED(to), sequence, sequence_len, res);
    return ruszvedok_take_over(to, res);
}

/* ======== end of the written part ======== */

/* Adds a call to a list, and what it reads beside the content to the list's pools: the ellipsis, fill or prefix; of REPLACE a
 * view with the new text as data and the records as entries; of WRAP, WRAP_BREAKING and EXPAND_TABS ruszvedok_plain(""). False, and
 * nothing is added, if it does not fit. */
static inline bool ruszvedok_add_call(ruszvedok_calls *to, enum ruszvedok_call_kind kind, uint32_t width, ruszvedok_view second)
{
    size_t data = to->pool_len, text = data + second.data_len, end = text + second.text_len;
    size_t entries = to->pool_numbers_len, entries_end = entries + second.entries_len;
    ruszvedok_call call = {(uint32_t)kind, width, (uint32_t)data, (uint32_t)text, (uint32_t)entries, (uint32_t)entries_end, (uint32_t)text,
        (uint32_t)end};
    if (to->calls_len >= to->calls_room || end > to->pool_room || entries_end > to->pool_numbers_room || end > UINT32_MAX
        || entries_end > UINT32_MAX)
        return false;
    memcpy(to->pool + data, second.data, second.data_len);
    memcpy(to->pool + text, second.text, second.text_len);
    memcpy(to->pool_numbers + entries, second.entries, second.entries_len * sizeof second.entries[0]);
    to->calls[to->calls_len++] = call;
    to->pool_len = end;
    to->pool_numbers_len = entries_end;
    return true;
}

/* Runs a list on the recording `to`, which holds the result then. `other` has buffers of the same lengths, which the calls write
 * to in turn; it is empty then. `answers` gets one answer a call. After a refusal of the list all is what it was. */
static inline ruszvedok_answer ruszvedok_run_calls_to(
    ruszvedok_recording *to, ruszvedok_recording *other, const ruszvedok_calls *list, uint32_t *out_lines, size_t out_lines_len,
    ruszvedok_call_answer *answers, size_t answers_len)
{
    uint64_t res[5];
    ruszvedok_run_calls(
        (const uint32_t *)list->calls, RUSZVEDOK_CALL_SIZE * list->calls_len, list->pool, list->pool_len, list->pool_numbers,
        list->pool_numbers_len, to->data_len, to->entries_len, to->text_len, RUSZVEDOK_LENT(to), RUSZVEDOK_LENT(other), out_lines,
        out_lines_len, (uint64_t *)answers, RUSZVEDOK_CALL_ANSWER_SIZE * answers_len, res);
    if (res[RUSZVEDOK_RES_REFUSAL] == 0)
        other->data_len = other->entries_len = other->text_len = 0;
    return ruszvedok_take_over(to, res);
}

/* Takes over what a call left in a line index; after a refusal it is what it was. */
static inline ruszvedok_answer ruszvedok_take_over_index(ruszvedok_line_index *index, ruszvedok_view content, const uint64_t res[5])
{
    ruszvedok_answer answer = ruszvedok_answer_of(res);
    if (answer.refusal == 0) {
        index->starts_len = (size_t)answer.number;
        index->data_len = content.data_len;
    }
    return answer;
}

/* Makes `index` that of the data, whatever it held. */
static inline ruszvedok_answer ruszvedok_build_line_index_to(ruszvedok_line_index *index, ruszvedok_view content)
{
    uint64_t res[5];
    ruszvedok_build_line_index(RUSZVEDOK_READ(content), index->starts, index->starts_room, res);
    return ruszvedok_take_over_index(index, content, res);
}

/* Makes `index`, which is that of the data before an append, that of all the data. */
static inline ruszvedok_answer ruszvedok_extend_line_index_to(ruszvedok_line_index *index, ruszvedok_view content)
{
    uint64_t res[5];
    ruszvedok_extend_line_index(RUSZVEDOK_READ(content), index->data_len, index->starts, index->starts_room, index->starts_len, res);
    return ruszvedok_take_over_index(index, content, res);
}

/* Line n of the data, counted from 0, by its index. */
static inline ruszvedok_line ruszvedok_line_at_in(const ruszvedok_line_index *index, ruszvedok_view content, size_t n)
{
    uint64_t res[3];
    ruszvedok_line line;
    ruszvedok_line_at(RUSZVEDOK_READ(content), index->starts, index->starts_len, n, res);
    line.refusal = res[0];
    line.first = (size_t)res[1];
    line.end = (size_t)res[2];
    return line;
}

/* Line and byte column of an offset, by the data's index. */
static inline ruszvedok_line_column ruszvedok_place_of_in(const ruszvedok_line_index *index, ruszvedok_view content, size_t offset)
{
    uint64_t res[3];
    ruszvedok_line_column at;
    ruszvedok_place_of(RUSZVEDOK_READ(content), index->starts, index->starts_len, offset, res);
    at.refusal = res[0];
    at.line = (size_t)res[1];
    at.column = (size_t)res[2];
    return at;
}

/* Adds a string. */
static inline ruszvedok_answer ruszvedok_string_to(ruszvedok_recording *to, const char *string)
{
    return ruszvedok_write_to(to, (const uint8_t *)string, strlen(string));
}

/* Adds a string under a label; nothing of it if any part is refused. */
static inline ruszvedok_answer ruszvedok_labeled_to(ruszvedok_recording *to, const char *label, const char *string)
{
    ruszvedok_recording before = *to;
    ruszvedok_answer answer = ruszvedok_push_label_to(to, (const uint8_t *)label, strlen(label));
    if (answer.refusal == 0)
        answer = ruszvedok_string_to(to, string);
    if (answer.refusal == 0)
        answer = ruszvedok_pop_label_to(to);
    if (answer.refusal != 0)
        *to = before;
    return answer;
}

#ifdef __cplusplus
}
#endif

#endif
