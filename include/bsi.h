/* bsi: a bitmap index of whole numbers, for callers in C.
 *
 * An index holds rows; a row has one entry for each column: a number, or a null. Rows come from 1 to 64 feeders, and
 * questions are asked of all rows. docs/C.md shows a program.
 *
 * Each call takes a handle and returns a status. If the status is not BSI_OK, the call has changed no row, and
 * written nothing except what is said at the call.
 *
 * Pointers. No pointer is null, but one to a length of 0 may be: nothing is read or written there. What a call reads is
 * the caller's, and is not used after the call. What a call writes must not overlap anything else that it is given.
 *
 * Threads. No other call may use a handle while a call runs, not even to ask. Two handles of one index, made by bsi_share, may be
 * used by two threads at once. A handle may be used by one thread after another.
 */
#ifndef BSI_H
#define BSI_H

#include <stdbool.h>
#include <stddef.h>
#include <stdint.h>

#ifdef __cplusplus
extern "C" {
#endif

/* The version of this header, 0.2.0: 10,000 for each major one, 100 for each minor one, and the patch. */
#define BSI_VERSION 200

/* Returns that of the library. */
uint32_t bsi_version(void);

/* A handle. One whose bytes are all zero is closed, as BSI_INDEX makes it. Only bsi's calls write it, and it is not copied
 * while it is open. bsi_close frees what it holds. Its fields are bsi's own. */
typedef struct {
    void *at;
    bool full;
    uint64_t reserved[2]; /* so that its size stays */
} bsi_index;

#define BSI_INDEX {0}

/* The bytes of a field of a query, without an end mark. */
typedef struct {
    const uint8_t *at;
    size_t len;
} bsi_text;

/* A column of rows that are appended. Entry r is the number values[r], or a null if bit r of the bitmap is 0: bit
 * r % 8 of byte r / 8, from the lowest. A bitmap of 0 bytes says that no entry is null; any other has at least
 * values_len / 8 bytes, rounded up. */
typedef struct {
    const int64_t *values;
    size_t values_len; /* in numbers */
    const uint8_t *valid;
    size_t valid_len; /* in bytes */
} bsi_column;

/* An answer. Only the fields of its kind count. */
typedef struct {
    uint32_t kind;      /* which of BSI_COUNT, BSI_SUM, BSI_VALUE and BSI_ROWS */
    bool present;       /* BSI_VALUE: whether there is a number */
    int64_t value;      /* BSI_VALUE: the number, if there is one */
    uint64_t count;     /* BSI_COUNT: the count; BSI_ROWS: how many rows there are */
    uint64_t low, high; /* BSI_SUM: the sum, high * 2^64 + low, of 128 bits in two's complement */
} bsi_answer;

enum { BSI_COUNT = 1, BSI_SUM = 2, BSI_VALUE = 3, BSI_ROWS = 4 };

/* A row of an answer. */
typedef struct {
    uint32_t feeder; /* from 0 */
    uint64_t row;    /* its number among that feeder's rows, from 0 */
} bsi_place;

/* A group of rows: those that have the same entry in a column. */
typedef struct {
    bool present;      /* whether the rows have a number there; else they are null */
    int64_t entry;     /* the number, if there is one */
    bsi_answer answer; /* the answer over these rows; of BSI_ROWS only the count */
} bsi_group;

/* A row's entry in a column, or the number of a rank. */
typedef struct {
    bool present;   /* whether there is a number; else the row is null there, or the rank is past the last */
    int64_t number; /* the number, if there is one */
} bsi_entry;

/* A group of rows: those that have the same two entries in two columns. */
typedef struct {
    bsi_entry entries[2]; /* the entry in each column */
    bsi_answer answer;    /* the answer over these rows; of BSI_ROWS only the count */
} bsi_pair;

/* A row of an index, and its number in a column. */
typedef struct {
    uint64_t row; /* from 0, as bsi_select numbers rows */
    int64_t number;
} bsi_row;

/* How a call ended. */
enum {
    BSI_OK = 0,             /* it was done */
    BSI_CLOSED = 1,         /* the handle is closed */
    BSI_OPEN = 2,           /* the handle that is to be opened is open */
    BSI_NO_MEMORY = 3,      /* memory was refused */
    BSI_BAD_SCHEMA = 4,     /* a record of the schema is neither a column nor a limit, or can't be carried out */
    BSI_NO_COLUMNS = 5,     /* the schema has no column */
    BSI_BAD_FEEDER = 6,     /* a number of feeders that is not from 1 to 64; in bsi_append no such feeder */
    BSI_BAD_COLUMNS = 7,    /* another number of columns than the schema has, lengths that differ, or a short bitmap */
    BSI_BAD_ROW = 8,        /* a row has a number that its column does not accept */
    BSI_INDEX_FULL = 9,     /* there would be more rows than the limit */
    BSI_SHARED = 10,        /* a shared index accepts no rows and no kinds */
    BSI_BAD_QUERY = 11,     /* the fields are no query or no predicate, or the predicate has over 1,000; or there is no
                               column of a name that was passed */
    BSI_NO_ROOM = 12,       /* there is too little room */
    BSI_BAD_TEXT = 13,      /* the schema has more than 1,000,000 records */
    BSI_LONG_NOTES = 14,    /* there are more than BSI_MAX_NOTES bytes of notes */
    BSI_NOT_KEPT = 15,      /* the bytes are not those of a saved index, or there are none */
    BSI_OTHER_VERSION = 16, /* they are of another version of the format */
    BSI_CUT_SHORT = 17,     /* they end within a segment */
    BSI_DAMAGED = 18,       /* a segment is not as it was written */
    BSI_BAD_KINDS = 19      /* a text of kinds is of other columns, or has more than BSI_MAX_KINDS bytes */
};

/* Opens a closed handle, with no rows. The schema is the text of a schema file, as docs/FORMATS.md says: the records
 * "column,NAME,FORM,SIZES" or "column,NAME,FORM,SIZES,OFFSET", and the last of "limit,ROWS", if there are any, counts (2^32
 * rows otherwise). The index has a copy of it. At BSI_BAD_SCHEMA *bad_record is the number of the first bad record, from
 * 1; else it is 0. */
uint32_t bsi_open(bsi_index *index, const uint8_t *schema, size_t schema_len, uint32_t feeders, uint64_t *bad_record);

/* Appends rows of a feeder, numbered from 0, that are given as one bsi_column for each column of the schema, in its
 * order. All rows are tested before the first is appended. *row and *column are, at
 *     BSI_OK           how many rows were appended: all; and 0
 *     BSI_BAD_ROW      the first row that does not fit, and the first column, from 0, that does not accept its entry
 *     BSI_BAD_COLUMNS  0, and the first column that is missing, or too many, or has another number of entries than the first
 *                      or a bitmap that is short
 *     BSI_NO_MEMORY    how many of the first rows were appended, in whole blocks of 64; and 0
 * and else 0. Only at BSI_OK and BSI_NO_MEMORY were rows appended. */
uint32_t bsi_append(bsi_index *index, uint32_t feeder, const bsi_column *columns, size_t columns_len, uint64_t *row,
                    size_t *column);

/* Makes room for this number of further rows at once. More rows than the limit are BSI_INDEX_FULL. */
uint32_t bsi_reserve(bsi_index *index, uint64_t rows);

/* Answers a query, given as the fields of a query record: {"count", "price", "<", "100"}, or of a rank, from 0:
 * {"rank", "price", "9", "all"}. A comparison may have the name of another column in place of the number: {"count", "price",
 * "<", "cost"}. The rows of an answer are written to places; at BSI_NO_ROOM the answer is BSI_ROWS, and its count says how
 * many places are needed. */
uint32_t bsi_ask(bsi_index *index, const bsi_text *fields, size_t fields_len, bsi_answer *answer, bsi_place *places,
                 size_t places_len);

/* Answers the fields of a record of questions by the line that `bsi ask` writes for it, with its line end: {"sum", "Amount",
 * "Day", ">=", "2026-01-31"} by "sum 12.50\n". Columns have their titles too, and constants and numbers are values of the kinds of
 * the index; without kinds they are whole numbers. A record that asks nothing is answered by "bad\n". *size is the number of
 * bytes, at BSI_NO_ROOM too. */
uint32_t bsi_answer_line(bsi_index *index, const bsi_text *fields, size_t fields_len, uint8_t *line, size_t room,
                         size_t *size);

/* Answers a query over each group of the rows that it selects: those with the same entry in the column of a name, given as
 * its bytes. The groups come in order of their numbers, that of the null rows last. *count is how many they are; at
 * BSI_NO_ROOM there are more than groups_len, and nothing is written. No such column is BSI_BAD_QUERY. */
uint32_t bsi_group_by(bsi_index *index, const bsi_text *fields, size_t fields_len, const uint8_t *name, size_t name_len,
                      bsi_group *groups, size_t groups_len, size_t *count);

/* Answers a query over each group of the rows that it selects: those with the same two entries in the columns of two names.
 * The groups come in order of the first column's numbers, null last, and those of one of these in order of the second's.
 * *count is how many they are; at BSI_NO_ROOM there are more than pairs_len, and nothing is written. No such column is
 * BSI_BAD_QUERY. The names may be the same. */
uint32_t bsi_group_by_two(bsi_index *index, const bsi_text *fields, size_t fields_len, const uint8_t *first,
                          size_t first_len, const uint8_t *second, size_t second_len, bsi_pair *pairs, size_t pairs_len,
                          size_t *count);

/* Writes which rows a predicate selects, given as its fields: {"price", "<", "100"}. Row i is bit i % 64 of word i / 64,
 * from the lowest; bits past the last row are 0. Rows are numbered as they were appended, by all feeders together. It
 * takes at least as many words as the rows fill, rows / 64, rounded up, and writes these; fewer are BSI_NO_ROOM. */
uint32_t bsi_select(bsi_index *index, const bsi_text *fields, size_t fields_len, uint64_t *words, size_t words_len);

/* Writes how many different numbers the column of a name, given as its bytes, has at the rows that a predicate selects. A
 * null is none. No such column is BSI_BAD_QUERY. */
uint32_t bsi_distinct(bsi_index *index, const bsi_text *fields, size_t fields_len, const uint8_t *name, size_t name_len,
                      uint64_t *count);

/* Writes the number at the end of `part` parts of `whole` of those that the column of a name has at such rows, or none if
 * there is no number: of n numbers that of the rank (n - 1) * part / whole, from 0 and rounded down, so 1 and 2 give the
 * lower median. A whole of 0 or below the part is BSI_BAD_QUERY. */
uint32_t bsi_quantile(bsi_index *index, const bsi_text *fields, size_t fields_len, const uint8_t *name, size_t name_len,
                      uint64_t part, uint64_t whole, bsi_entry *number);

/* Writes for each rank, from 0, the number that has it among those that the column of a name has at such rows, or none past
 * the last: as "rank" is answered, but the rows are selected once. At BSI_NO_ROOM there are more ranks than numbers. */
uint32_t bsi_ranks(bsi_index *index, const bsi_text *fields, size_t fields_len, const uint8_t *name, size_t name_len,
                   const uint64_t *ranks, size_t ranks_len, bsi_entry *numbers, size_t numbers_len);

/* Writes the rows with the greatest numbers, or the least, that the column of a name has at such rows: as many as rows_len,
 * or all if fewer have a number. The greatest comes first, or the least, and of rows with one number the lower row.
 * *count is how many they are. */
uint32_t bsi_top(bsi_index *index, const bsi_text *fields, size_t fields_len, const uint8_t *name, size_t name_len,
                 bool least, bsi_row *rows, size_t rows_len, size_t *count);

/* Writes the number of rows, at most 2^32. */
uint32_t bsi_rows(bsi_index *index, uint64_t *rows);

/* Writes how many bytes the index keeps of its rows: those of its bitmaps, in words of 64 rows, a byte a row for the feeder,
 * and, with several feeders, 4 bytes for each of them and every 512 rows. The room for more rows is not counted. */
uint32_t bsi_memory(bsi_index *index, uint64_t *bytes);

/* Writes the schema as the text that opened the index, or for saved bytes one that declares the same. *size is its number
 * of bytes, at BSI_NO_ROOM too. */
uint32_t bsi_schema(bsi_index *index, uint8_t *text, size_t room, size_t *size);

/* The most bytes of a text of kinds. */
#define BSI_MAX_KINDS 67108864

/* Gives an index a text of kinds in place of its own: what the numbers of its columns stand for, as docs/FORMATS.md says. It
 * declares the same columns as the schema, in the same order; no bytes mean whole numbers. The other calls speak of numbers
 * as before; bsi_save saves the text. The index has a copy of it. */
uint32_t bsi_set_kinds(bsi_index *index, const uint8_t *text, size_t len);

/* Writes the text of kinds that was set, or that the saved bytes had. *size is its number of bytes, at BSI_NO_ROOM too. */
uint32_t bsi_kinds(bsi_index *index, uint8_t *text, size_t room, size_t *size);

/* The most bytes of notes, which a caller stores with an index. */
#define BSI_MAX_NOTES 67108864

/* Writes the index, its kinds and the caller's notes as bytes: a file of one segment, as docs/FORMATS.md says. *size is their
 * number, at BSI_NO_ROOM too, so a call with no room asks for it. The call needs memory for twice these bytes or more. */
uint32_t bsi_save(bsi_index *index, const uint8_t *notes, size_t notes_len, uint8_t *bytes, size_t room, size_t *size);

/* Opens a closed handle with the index that all these bytes are, and writes the notes of the last segment; room for
 * BSI_MAX_NOTES is enough, and so is room for len. *notes_len is their number, at BSI_NO_ROOM too, which leaves the handle
 * closed. The bytes are not used after the call. *whole is how many of the first bytes are an index: all at BSI_OK,
 * BSI_NO_ROOM and BSI_BAD_KINDS; at BSI_NOT_KEPT, BSI_OTHER_VERSION, BSI_CUT_SHORT, BSI_DAMAGED and BSI_NO_MEMORY those
 * before the fault, which may be opened instead, or 0; 0 at BSI_OPEN. */
uint32_t bsi_open_kept(bsi_index *index, const uint8_t *bytes, size_t len, uint8_t *notes, size_t notes_room,
                       size_t *notes_len, uint64_t *whole);

/* Opens another, closed handle of the same index, whose rows stay the same from then on: neither handle accepts more. If
 * memory is refused, the other stays closed, and the index may accept no more rows. */
uint32_t bsi_share(bsi_index *index, bsi_index *other);

/* Closes a handle. The index is freed with its last handle. */
uint32_t bsi_close(bsi_index *index);

/* Returns in words how a call ended. */
const char *bsi_status_text(uint32_t status);

#ifdef __cplusplus
}
#endif

#endif
