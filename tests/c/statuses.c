/* Each status of each call, and that a refused call changes nothing. */
#include "check.h"

static int64_t numbers[100] = {3, 1, 2};
static uint8_t bits[16] = {255, 255};
static bsi_place places[8];
static uint64_t words[4];
static bsi_group groups[4];
static bsi_pair pairs[4];
static bsi_entry entries[4];
static bsi_row rows[4];
static bsi_index closed, open_one;

static uint64_t rows_of(bsi_index *index) {
    uint64_t rows = UINT64_MAX;
    bsi_rows(index, &rows);
    return rows;
}

static uint64_t memory_of(bsi_index *index) {
    uint64_t bytes = UINT64_MAX;
    bsi_memory(index, &bytes);
    return bytes;
}

static uint32_t append_at(bsi_index *index, uint32_t feeder, const bsi_column *columns, size_t len, uint64_t want_row,
                          size_t want_column) {
    uint64_t row = 77;
    size_t column = 77;
    uint32_t status = bsi_append(index, feeder, columns, len, &row, &column);
    return row == want_row && column == want_column ? status : 1000 + (uint32_t)row;
}

static uint32_t append(bsi_index *index, uint32_t feeder, const bsi_column *columns, size_t len, uint64_t want_row) {
    return append_at(index, feeder, columns, len, want_row, 0);
}

static void of_a_closed_handle(void) {
    bsi_column column = {numbers, 1, bits, 0};
    bsi_answer answer = {0};
    bsi_index other = {0};
    uint64_t number;
    size_t size;
    check(append(&closed, 0, &column, 1, 0) == BSI_CLOSED, "append: a closed handle");
    check(ask(&closed, "count all", &answer, places, 0) == BSI_CLOSED, "ask: a closed handle");
    check(group_by(&closed, "count all", "x", groups, 1, &size) == BSI_CLOSED, "group_by: a closed handle");
    check(group_by_two(&closed, "count all", "x", "y", pairs, 1, &size) == BSI_CLOSED, "group_by_two: a closed handle");
    check(distinct(&closed, "all", "x", &number) == BSI_CLOSED, "distinct: a closed handle");
    check(ranks(&closed, "all", "x", words, 1, entries, 1) == BSI_CLOSED, "ranks: a closed handle");
    check(quantile(&closed, "all", "x", 1, 2, entries) == BSI_CLOSED, "quantile: a closed handle");
    check(top(&closed, "all", "x", false, rows, 1, &size) == BSI_CLOSED, "top: a closed handle");
    check(selects(&closed, "all", words, 0) == BSI_CLOSED, "select: a closed handle");
    check(bsi_rows(&closed, &number) == BSI_CLOSED, "rows: a closed handle");
    check(bsi_memory(&closed, &number) == BSI_CLOSED, "memory: a closed handle");
    check(bsi_reserve(&closed, 0) == BSI_CLOSED, "reserve: a closed handle");
    check(bsi_schema(&closed, bits, 0, &size) == BSI_CLOSED, "schema: a closed handle");
    check(bsi_share(&closed, &other) == BSI_CLOSED, "share: a closed handle");
    check(bsi_close(&closed) == BSI_CLOSED, "close: a closed handle");
    check(!closed.at && !closed.full && !other.at && !other.full, "a handle of zero bytes stays so");
}

static void of_schemas(void) {
    uint64_t bad = 0;
    check(opens(&closed, "column,x,slices,8\ncolumn,x,slices,8\n", 1, &bad) == BSI_BAD_SCHEMA && bad == 2, "open: a name twice");
    check(opens(&closed, "nothing\n", 1, &bad) == BSI_BAD_SCHEMA && bad == 1, "open: a record that declares nothing");
    check(opens(&closed, "limit,0\n", 1, &bad) == BSI_BAD_SCHEMA && bad == 1, "open: a limit of 0");
    check(opens(&closed, "column,\xff,slices,8\n", 1, &bad) == BSI_BAD_SCHEMA && bad == 1, "open: a name that is no text");
    check(opens(&closed, "", 1, &bad) == BSI_NO_COLUMNS && bad == 0, "open: no text");
    check(opens(&closed, "limit,5\n", 1, &bad) == BSI_NO_COLUMNS && bad == 0, "open: a limit alone");
    check(opens(&closed, "column,x,slices,8\n", 0, &bad) == BSI_BAD_FEEDER, "open: no feeder");
    check(opens(&closed, "column,x,slices,8\n", 65, &bad) == BSI_BAD_FEEDER, "open: 65 feeders");
    check(!closed.at && !closed.full, "a handle that was not opened is closed");
    size_t many = 1000001;
    uint8_t *text = malloc(many * 8);
    for (size_t k = 0; k < many; k++) memcpy(text + 8 * k, "limit,9\n", 8);
    memcpy(text, "limit,9\n", 8);
    check(bsi_open(&closed, text, many * 8, 1, &bad) == BSI_BAD_TEXT && bad == 0, "open: 1,000,001 records");
    free(text);
    check(opens(&open_one, "column,x,slices,8\ncolumn,y,range,10 10,-50\nlimit,70\n", 2, &bad) == BSI_OK && bad == 0, "open");
    check(opens(&open_one, "column,x,slices,8\n", 1, &bad) == BSI_OPEN && bad == 0, "open: an open handle");
    check(rows_of(&open_one) == 0 && memory_of(&open_one) == 0, "an index begins with no rows, and keeps no bytes of these");
}

static void of_columns(void) {
    int64_t big[3] = {1, 256, 2}, low[3] = {-50, 49, -51};
    bsi_column two[2] = {{numbers, 3, bits, 0}, {numbers, 3, bits, 0}};
    bsi_column three[3] = {two[0], two[1], two[1]};
    bsi_column long_one[2] = {{numbers, 71, bits, 0}, {numbers, 71, bits, 0}};
    bsi_column no_rows[2] = {{numbers, 0, bits, 0}, {numbers, 0, bits, 0}};
    check(append(&open_one, 2, two, 2, 0) == BSI_BAD_FEEDER, "append: no such feeder");
    check(append_at(&open_one, 0, two, 1, 0, 1) == BSI_BAD_COLUMNS, "append: one column of two, and the second is missing");
    check(append(&open_one, 0, two, 0, 0) == BSI_BAD_COLUMNS, "append: no column, and the first is missing");
    check(append_at(&open_one, 0, three, 3, 0, 2) == BSI_BAD_COLUMNS, "append: three columns of two, and the third is too many");
    two[1].values_len = 2;
    check(append_at(&open_one, 0, two, 2, 0, 1) == BSI_BAD_COLUMNS, "append: lengths that differ");
    long_one[1].valid_len = 8;
    check(append_at(&open_one, 0, long_one, 2, 0, 1) == BSI_BAD_COLUMNS, "append: a bitmap that is short by a byte");
    long_one[1].valid_len = 0;
    check(append(&open_one, 0, long_one, 2, 0) == BSI_INDEX_FULL, "append: a row more than the limit");
    uint64_t left = 70 - rows_of(&open_one);
    check(bsi_reserve(&open_one, left + 1) == BSI_INDEX_FULL, "reserve: a row more than the limit");
    check(bsi_reserve(&open_one, UINT64_MAX) == BSI_INDEX_FULL, "reserve: more rows than there are numbers of bytes");
    check(bsi_reserve(&open_one, left) == BSI_OK && rows_of(&open_one) == 70 - left, "reserve: up to the limit");
    two[1] = (bsi_column){low, 3, bits, 0};
    check(append_at(&open_one, 0, two, 2, 2, 1) == BSI_BAD_ROW, "append: a number below the least");
    two[0].values = big;
    check(append(&open_one, 0, two, 2, 1) == BSI_BAD_ROW, "append: the first of two rows that do not fit");
    low[1] = 50;
    check(append(&open_one, 0, two, 2, 1) == BSI_BAD_ROW, "append: the first of two columns that a row does not fit");
    low[0] = 50;
    check(append_at(&open_one, 0, two, 2, 0, 1) == BSI_BAD_ROW, "append: the second column, in an earlier row than the first");
    low[0] = -50, low[1] = 49;
    check(append(&open_one, 0, no_rows, 2, 0) == BSI_OK, "append: no rows");
    check(rows_of(&open_one) == 0, "refused rows are not there");
    bits[15] = 5;
    two[0] = (bsi_column){big, 3, bits + 15, 1};
    two[1] = (bsi_column){low, 3, bits + 15, 1};
    low[2] = 0;
    check(append(&open_one, 1, two, 2, 3) == BSI_OK && rows_of(&open_one) == 3, "append: a null need not fit");
    /* 9 bitmaps of 8 slices; 27 of two bases of 10, with 9 digits and 4 places each; a byte a row; two counts */
    check(memory_of(&open_one) == (9 + 27) * 8 + 3 + 2 * 4, "memory: the bytes of 36 bitmaps of a word, and of the feeders");
}

static void of_pairs(void) {
    size_t count = 77;
    check(group_by_two(&open_one, "all", "x", "y", pairs, 4, &count) == BSI_BAD_QUERY, "group_by_two: no query");
    check(group_by_two(&open_one, "count all", "z", "y", pairs, 4, &count) == BSI_BAD_QUERY, "group_by_two: no first column");
    check(group_by_two(&open_one, "count all", "x", "z", pairs, 4, &count) == BSI_BAD_QUERY, "group_by_two: no second column");
    check(group_by_two(&open_one, "count all", "x", "y", pairs, 2, &count) == BSI_NO_ROOM && count == 77,
          "group_by_two: too little room");
    check(!pairs[0].entries[0].present && pairs[0].answer.kind == 0, "group_by_two: a refused call writes nothing");
    check(group_by_two(&open_one, "count all", "x", "y", pairs, 4, &count) == BSI_OK && count == 3, "group_by_two: a group a pair");
    check(pairs[0].entries[0].number == 1 && pairs[0].entries[1].number == -50 && pairs[1].entries[0].number == 2
              && pairs[1].entries[1].present && pairs[1].entries[1].number == 0,
          "group_by_two: in order of the first column");
    check(!pairs[2].entries[0].present && !pairs[2].entries[1].present && pairs[2].answer.count == 1 && pairs[3].answer.kind == 0,
          "group_by_two: the group of the nulls");
}

static void of_numbers(void) {
    uint64_t count = 77, wanted[3] = {1, 2, 0};
    size_t listed = 77;
    check(distinct(&open_one, "count all", "x", &count) == BSI_BAD_QUERY && count == 77, "distinct: a query");
    check(distinct(&open_one, "all", "z", &count) == BSI_BAD_QUERY && count == 77, "distinct: no such column");
    check(distinct(&open_one, "all", "x", &count) == BSI_OK && count == 2, "distinct: a null is no number");
    check(ranks(&open_one, "all", "z", wanted, 3, entries, 3) == BSI_BAD_QUERY, "ranks: no such column");
    check(ranks(&open_one, "all", "y", wanted, 3, entries, 2) == BSI_NO_ROOM && !entries[0].present, "ranks: too little room");
    check(ranks(&open_one, "all", "y", wanted, 3, entries, 4) == BSI_OK && entries[0].present && entries[0].number == 0
              && !entries[1].present && entries[2].present && entries[2].number == -50,
          "ranks: one past the last has no number");
    check(quantile(&open_one, "all", "z", 1, 2, entries) == BSI_BAD_QUERY, "quantile: no such column");
    check(quantile(&open_one, "all", "y", 3, 2, entries) == BSI_BAD_QUERY && entries[0].number == 0, "quantile: more than the whole");
    check(quantile(&open_one, "all", "y", 0, 0, entries) == BSI_BAD_QUERY && entries[0].number == 0, "quantile: a whole of no parts");
    check(quantile(&open_one, "all", "y", 1, 2, entries) == BSI_OK && entries[0].present && entries[0].number == -50,
          "quantile: the half is the lower median");
    check(quantile(&open_one, "y null", "y", 1, 2, entries) == BSI_OK && !entries[0].present, "quantile: of no number there is none");
    check(top(&open_one, "nothing", "y", false, rows, 4, &listed) == BSI_BAD_QUERY && listed == 77, "top: no predicate");
    check(top(&open_one, "all", "y", false, rows, 4, &listed) == BSI_OK && listed == 2 && rows[0].row == 2 && rows[0].number == 0
              && rows[1].row == 0 && rows[1].number == -50,
          "top: the greatest comes first, and a null has no place");
    check(top(&open_one, "all", "y", true, rows, 1, &listed) == BSI_OK && listed == 1 && rows[0].row == 0, "top: the least");
}

static void of_questions(void) {
    static bsi_text many[1002];
    bsi_answer answer = {0};
    many[0] = (bsi_text){(const uint8_t *)"count", 5};
    for (size_t k = 1; k < 1002; k++) many[k] = (bsi_text){(const uint8_t *)(k < 3 || k % 2 == 0 ? "all" : "and"), 3};
    check(bsi_ask(&open_one, many, 1000, &answer, places, 0) == BSI_OK && answer.count == 3, "ask: 999 fields after the word");
    check(bsi_ask(&open_one, many, 1002, &answer, places, 0) == BSI_BAD_QUERY, "ask: 1,001 fields after the word");
    check(bsi_ask(&open_one, many, 0, &answer, places, 0) == BSI_BAD_QUERY, "ask: no field");
    check(ask(&open_one, "count z = 1", &answer, places, 0) == BSI_BAD_QUERY, "ask: no such column");
    check(ask(&open_one, "sum all", &answer, places, 0) == BSI_BAD_QUERY, "ask: a total without its column");
    check(ask(&open_one, "list all", &answer, places, 2) == BSI_NO_ROOM && answer.kind == BSI_ROWS && answer.count == 3,
          "ask: too few places, and how many are needed");
    check(ask(&open_one, "list y null", &answer, places, 1) == BSI_OK && answer.count == 1 && places[0].feeder == 1 && places[0].row == 1,
          "ask: the row with a null");
    size_t count = 77;
    check(group_by(&open_one, "all", "y", groups, 4, &count) == BSI_BAD_QUERY, "group_by: no query");
    check(group_by(&open_one, "count all", "z", groups, 4, &count) == BSI_BAD_QUERY, "group_by: no such column");
    check(group_by(&open_one, "count all", "x", groups, 2, &count) == BSI_NO_ROOM && count == 77, "group_by: too little room");
    check(!groups[0].present && groups[0].answer.kind == 0, "group_by: a refused call writes nothing");
    check(group_by(&open_one, "count all", "x", groups, 4, &count) == BSI_OK && count == 3, "group_by: a group a number");
    check(group_by(&open_one, "count y null", "y", groups, 1, &count) == BSI_OK && count == 1 && !groups[0].present
              && groups[0].answer.count == 1 && groups[1].answer.kind == BSI_COUNT,
          "group_by: the group of the null");
    check(selects(&open_one, "count all", words, 1) == BSI_BAD_QUERY, "select: a query");
    check(selects(&open_one, "", words, 1) == BSI_BAD_QUERY, "select: no field");
    check(selects(&open_one, "all", words, 0) == BSI_NO_ROOM, "select: no word for three rows");
    words[1] = 77;
    check(selects(&open_one, "all", words, 2) == BSI_OK && words[0] == 7 && words[1] == 77, "select: two words for three rows");
    check(selects(&open_one, "x >= 2 y = 0 or", words, 1) == BSI_OK && words[0] == 4, "select: the rows of a predicate");
}

/* Returns whether the bytes from one place to another are those that `mark` put there. */
static bool is_untouched(const void *block, size_t from, size_t to) {
    const uint8_t *at = block;
    for (size_t k = from; k < to; k++)
        if (at[k] != 0xa5) return false;
    return true;
}

static void mark(void *block, size_t size) { memset(block, 0xa5, size); }

/* Each call writes what its answer says, and nothing behind it. */
static void of_what_is_written(void) {
    bsi_answer answer = {0};
    uint8_t text[100];
    size_t size = 0, one = sizeof *places;
    mark(places, sizeof places);
    bool right = ask(&open_one, "list y null", &answer, places, 8) == BSI_OK && answer.count == 1;
    check(right && is_untouched(places, one, sizeof places), "ask: no place behind those of the answer is written");
    mark(places, sizeof places);
    right = ask(&open_one, "count all", &answer, places, 8) == BSI_OK && ask(&open_one, "sum x all", &answer, places, 8) == BSI_OK
        && ask(&open_one, "median x all", &answer, places, 8) == BSI_OK;
    check(right && is_untouched(places, 0, sizeof places), "ask: no place is written by a count, a sum and a median");
    right = ask(&open_one, "list all", &answer, places, 2) == BSI_NO_ROOM;
    check(right && is_untouched(places, 2 * one, sizeof places), "ask: too few places, and none behind them is written");
    mark(words, sizeof words);
    right = selects(&open_one, "all", words, 1) == BSI_OK && words[0] == 7;
    check(right && is_untouched(words, sizeof *words, sizeof words), "select: no word behind those of the rows is written");
    mark(groups, sizeof groups);
    right = group_by(&open_one, "count y null", "y", groups, 4, &size) == BSI_OK && size == 1;
    check(right && is_untouched(groups, sizeof *groups, sizeof groups), "group_by: no group behind those of the answer is written");
    mark(pairs, sizeof pairs);
    right = group_by_two(&open_one, "count y null", "x", "y", pairs, 4, &size) == BSI_OK && size == 1;
    check(right && is_untouched(pairs, sizeof *pairs, sizeof pairs), "group_by_two: no pair behind those of the answer is written");
    uint64_t wanted = 0;
    mark(entries, sizeof entries);
    right = ranks(&open_one, "all", "x", &wanted, 1, entries, 4) == BSI_OK;
    check(right && is_untouched(entries, sizeof *entries, sizeof entries), "ranks: no number behind those of the answer is written");
    mark(rows, sizeof rows);
    right = top(&open_one, "y = 0", "x", false, rows, 4, &size) == BSI_OK && size == 1;
    check(right && is_untouched(rows, sizeof *rows, sizeof rows), "top: no row behind those of the answer is written");
    mark(text, sizeof text);
    right = bsi_schema(&open_one, text, sizeof text, &size) == BSI_OK && size == 52;
    check(right && is_untouched(text, size, sizeof text), "schema: no byte behind the text is written");
}

/* Programs that were built with this header rely on these. */
static void of_the_interface(void) {
    check(bsi_version() == BSI_VERSION, "the library is of the header's version");
    check(sizeof(bsi_index) == 32 && sizeof(bsi_text) == 16 && sizeof(bsi_column) == 32 && sizeof(bsi_answer) == 40
              && sizeof(bsi_place) == 16 && sizeof(bsi_group) == 56 && sizeof(bsi_entry) == 16 && sizeof(bsi_pair) == 72
              && sizeof(bsi_row) == 16,
          "the structs have the sizes of the release");
}

static void of_sharing(void) {
    bsi_index other = {0}, third = {0};
    bsi_column two[2] = {{numbers, 1, bits, 0}, {numbers, 1, bits, 0}};
    uint8_t text[64];
    uint64_t bad;
    size_t size = 0;
    check(bsi_schema(&open_one, text, 10, &size) == BSI_NO_ROOM && size == 52, "schema: too little room, and how much is needed");
    opens(&third, "column,x,slices,8\n", 1, &bad);
    check(bsi_share(&open_one, &third) == BSI_OPEN && append(&open_one, 0, two, 2, 1) == BSI_OK, "append: after a refused share");
    bsi_close(&third);
    check(bsi_share(&open_one, &other) == BSI_OK && rows_of(&other) == 4, "share");
    check(bsi_share(&open_one, &other) == BSI_OPEN, "share: into an open handle");
    check(append(&open_one, 0, two, 2, 0) == BSI_SHARED && append(&other, 0, two, 2, 0) == BSI_SHARED, "append: a shared index");
    check(bsi_close(&open_one) == BSI_OK && rows_of(&other) == 4, "a handle stays open when the other is closed");
    check(append(&other, 0, two, 2, 0) == BSI_SHARED, "append: an index that was shared");
    check(bsi_reserve(&other, 1) == BSI_SHARED, "reserve: an index that was shared");
    check(bsi_share(&other, &third) == BSI_OK && bsi_close(&other) == BSI_OK && rows_of(&third) == 4, "share: once more");
    check(bsi_close(&third) == BSI_OK && bsi_close(&third) == BSI_CLOSED, "close: twice");
}

/* A pointer to a length of 0 may be null. */
static void of_null_pointers_to_bytes(bsi_index *index) {
    bsi_answer answer = {0};
    uint64_t row;
    size_t refused, size, notes_len;
    bsi_text nothing = {NULL, 0};
    check(bsi_append(index, 0, NULL, 0, &row, &refused) == BSI_BAD_COLUMNS && refused == 0, "append: null and no column");
    check(bsi_ask(index, &nothing, 1, &answer, NULL, 0) == BSI_BAD_QUERY, "ask: a field of null and no byte");
    check(bsi_distinct(index, NULL, 0, NULL, 0, &row) == BSI_BAD_QUERY, "distinct: null and no field, null and no name");
    check(bsi_quantile(index, NULL, 0, NULL, 0, 1, 2, entries) == BSI_BAD_QUERY, "quantile: null and no field, null and no name");
    check(bsi_schema(index, NULL, 0, &size) == BSI_NO_ROOM && size > 0, "schema: null and no room");
    check(bsi_save(index, NULL, 0, NULL, 0, &size) == BSI_NO_ROOM && size > 0, "save: null and no note, null and no room");
    check(bsi_open_kept(&closed, NULL, 0, NULL, 0, &notes_len, &row) == BSI_NOT_KEPT, "open_kept: null and no byte");
    uint8_t *bytes = malloc(size);
    check(bsi_save(index, NULL, 0, bytes, size, &size) == BSI_OK, "save: null and no note");
    check(bsi_open_kept(&closed, bytes, size, NULL, 0, &notes_len, &row) == BSI_OK && !notes_len, "open_kept: null and no room");
    free(bytes);
    bsi_close(&closed);
}

static void of_null_pointers(void) {
    bsi_index index = {0};
    bsi_answer answer = {0};
    uint64_t bad;
    check(bsi_open(&index, NULL, 0, 1, &bad) == BSI_NO_COLUMNS, "open: null and 0 bytes");
    opens(&index, "column,x,slices,8\n", 1, &bad);
    bsi_column column = {NULL, 0, NULL, 0};
    check(append(&index, 0, &column, 1, 0) == BSI_OK, "append: null and no rows");
    check(bsi_ask(&index, NULL, 0, &answer, NULL, 0) == BSI_BAD_QUERY, "ask: null and no field");
    check(ask(&index, "list all", &answer, NULL, 0) == BSI_OK && answer.count == 0, "ask: null and no place");
    check(selects(&index, "all", NULL, 0) == BSI_OK, "select: null and no word");
    size_t count = 77;
    check(group_by(&index, "count all", "x", NULL, 0, &count) == BSI_OK && count == 0, "group_by: null and no group");
    check(group_by_two(&index, "count all", "x", "x", NULL, 0, &count) == BSI_OK && count == 0, "group_by_two: null and no pair");
    check(ranks(&index, "all", "x", NULL, 0, NULL, 0) == BSI_OK, "ranks: null and no rank");
    check(top(&index, "all", "x", false, NULL, 0, &count) == BSI_OK && count == 0, "top: null and no row");
    of_null_pointers_to_bytes(&index);
    bsi_close(&index);
}

static void of_texts(void) {
    static const struct {
        uint32_t status;
        const char *text;
    } texts[] = {
        {BSI_OK, "done"},
        {BSI_CLOSED, "the handle is closed"},
        {BSI_OPEN, "the handle is open"},
        {BSI_NO_MEMORY, "no memory"},
        {BSI_BAD_SCHEMA, "bad record in the schema"},
        {BSI_NO_COLUMNS, "no column in the schema"},
        {BSI_BAD_FEEDER, "no such feeder"},
        {BSI_BAD_COLUMNS, "columns of another number or length"},
        {BSI_BAD_ROW, "a row does not fit"},
        {BSI_INDEX_FULL, "the index is full"},
        {BSI_SHARED, "a shared index takes no rows"},
        {BSI_BAD_QUERY, "no query"},
        {BSI_NO_ROOM, "no room"},
        {BSI_BAD_TEXT, "too many records in the schema"},
        {BSI_LONG_NOTES, "too many bytes of notes"},
        {BSI_NOT_KEPT, "not a kept index"},
        {BSI_OTHER_VERSION, "a kept index of another version"},
        {BSI_CUT_SHORT, "a kept index that is cut short"},
        {BSI_DAMAGED, "a kept index that is damaged"},
        {BSI_BAD_KINDS, "kinds of other columns"},
        {20, "no status of bsi"},
        {UINT32_MAX, "no status of bsi"},
    };
    for (size_t k = 0; k < sizeof texts / sizeof *texts; k++)
        check(!strcmp(bsi_status_text(texts[k].status), texts[k].text), texts[k].text);
}

int main(void) {
    of_texts();
    of_a_closed_handle();
    of_schemas();
    of_columns();
    of_questions();
    of_pairs();
    of_numbers();
    of_what_is_written();
    of_the_interface();
    of_sharing();
    of_null_pointers();
    return failed != 0;
}
