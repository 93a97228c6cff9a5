/* Memory is refused at each growth in turn, once alone and once with all later ones: each call says so, changes no row
 * but those that it counts, and leaves no block. Where the growth is refused alone, the same call made again does what
 * is left. The calls by which the library asks for memory stand here in place of its own. */
#include "check.h"
#include <limits.h>
#include <malloc.h>

enum { ROWS = 200, MANY = 65536 };

static long left, live, live_bytes;
static bool all_later, was_refused;
static int64_t a[ROWS], b[ROWS];
static uint8_t none[1];
static bsi_place places[ROWS];
static uint64_t words[4];
static uint8_t kept[8192], notes[8];
static long wrong;

/* Returns whether this growth is refused: the one at which `left` comes to 0, and each later one if all are. */
static bool is_refused(void) {
    if (left > 0) left--;
    if (left > 0 || (was_refused && !all_later)) return false;
    return was_refused = true;
}

void *__wrap_malloc(size_t size);
void *__wrap_realloc(void *block, size_t size);
void __wrap_free(void *block);
void *__real_malloc(size_t size);
void *__real_realloc(void *block, size_t size);
void __real_free(void *block);

void *__wrap_malloc(size_t size) {
    void *block = is_refused() ? NULL : __real_malloc(size);
    live += block != NULL;
    live_bytes += malloc_usable_size(block);
    return block;
}

void *__wrap_realloc(void *block, size_t size) {
    size_t before = malloc_usable_size(block);
    void *grown = is_refused() ? NULL : __real_realloc(block, size);
    live_bytes += grown ? malloc_usable_size(grown) - before : 0;
    return grown;
}

void __wrap_free(void *block) {
    live -= block != NULL;
    live_bytes -= malloc_usable_size(block);
    __real_free(block);
}

static bool is_fair(uint32_t status) { return status == BSI_OK || (status == BSI_NO_MEMORY && was_refused); }

/* Returns whether the call is to be made again: memory was refused, and comes from now on. */
static bool is_to_repeat(uint32_t status) { return status == BSI_NO_MEMORY && !all_later; }

/* Returns the lower median of b in the first rows. */
static int64_t median_of_b(uint64_t rows) {
    for (int64_t median = 0;; median++) {
        uint64_t low = 0;
        for (uint64_t row = 0; row < rows; row++) low += b[row] <= median;
        if (2 * low >= rows) return median;
    }
}

static void list_below_100(bsi_index *index, uint64_t rows) {
    bsi_answer answer = {0};
    uint32_t status = ask(index, "list a < 100", &answer, places, ROWS);
    wrong += !is_fair(status);
    if (is_to_repeat(status)) wrong += (status = ask(index, "list a < 100", &answer, places, ROWS)) != BSI_OK;
    if (status) return;
    uint64_t wanted = 0;
    for (uint64_t row = 0; row < rows; row++) wanted += a[row] < 100;
    wrong += answer.count != wanted;
    for (uint64_t k = 0; k < answer.count; k++) wrong += places[k].row >= rows || a[places[k].row] >= 100;
}

static void median(bsi_index *index, uint64_t rows) {
    bsi_answer answer = {0};
    uint32_t status = ask(index, "median b all", &answer, places, ROWS);
    wrong += !is_fair(status);
    if (is_to_repeat(status)) wrong += (status = ask(index, "median b all", &answer, places, ROWS)) != BSI_OK;
    wrong += !status && (answer.present != (rows > 0) || (rows && answer.value != median_of_b(rows)));
}

static void select_below_100(bsi_index *index, uint64_t rows) {
    uint32_t status = selects(index, "a < 100", words, (rows + 63) / 64);
    wrong += !is_fair(status);
    if (is_to_repeat(status)) wrong += (status = selects(index, "a < 100", words, (rows + 63) / 64)) != BSI_OK;
    for (uint64_t row = 0; !status && row < rows; row++) wrong += (words[row / 64] >> (row % 64) & 1) != (a[row] < 100);
}

/* Counts the rows of the groups of b where a is below 100. */
static void groups_below_100(bsi_index *index, uint64_t rows) {
    static bsi_group groups[100];
    size_t count = 0;
    uint64_t found = 0, wanted = 0;
    uint32_t status = group_by(index, "count a < 100", "b", groups, 100, &count);
    wrong += !is_fair(status);
    if (is_to_repeat(status)) wrong += (status = group_by(index, "count a < 100", "b", groups, 100, &count)) != BSI_OK;
    if (status) return;
    for (size_t k = 0; k < count; k++) found += groups[k].answer.count;
    for (uint64_t row = 0; row < rows; row++) wanted += a[row] < 100;
    wrong += found != wanted;
}

/* Counts the rows of the groups of b and a where a is below 30. */
static void pairs_below_30(bsi_index *index, uint64_t rows) {
    static bsi_pair pairs[ROWS];
    size_t count = 0;
    uint64_t found = 0, wanted = 0;
    uint32_t status = group_by_two(index, "count a < 30", "b", "a", pairs, ROWS, &count);
    wrong += !is_fair(status);
    if (is_to_repeat(status)) wrong += (status = group_by_two(index, "count a < 30", "b", "a", pairs, ROWS, &count)) != BSI_OK;
    if (status) return;
    for (size_t k = 0; k < count; k++) found += pairs[k].answer.count;
    for (uint64_t row = 0; row < rows; row++) wanted += a[row] < 30;
    wrong += found != wanted;
}

/* Counts the different entries of b, and lists the two greatest of a. */
static void numbers_of_both(bsi_index *index, uint64_t rows) {
    bsi_row first[2];
    size_t listed = 0;
    uint64_t count = 0, greatest = 0;
    uint32_t status = distinct(index, "all", "b", &count);
    wrong += !is_fair(status);
    if (is_to_repeat(status)) wrong += (status = distinct(index, "all", "b", &count)) != BSI_OK;
    wrong += !status && (count > rows || !count != !rows);
    status = top(index, "all", "a", false, first, 2, &listed);
    wrong += !is_fair(status);
    if (is_to_repeat(status)) wrong += (status = top(index, "all", "a", false, first, 2, &listed)) != BSI_OK;
    if (status || !rows) return;
    for (uint64_t row = 1; row < rows; row++) greatest = a[row] > a[greatest] ? row : greatest;
    wrong += !listed || first[0].row != greatest || first[0].number != a[greatest];
}

/* Asks for the greatest number of a, by its rank and as a quantile. */
static void greatest(bsi_index *index, uint64_t rows) {
    bsi_entry by_rank, by_share;
    uint64_t last = rows - 1, row = 0;
    uint32_t status = ranks(index, "all", "a", &last, 1, &by_rank, 1);
    wrong += !is_fair(status);
    if (is_to_repeat(status)) wrong += (status = ranks(index, "all", "a", &last, 1, &by_rank, 1)) != BSI_OK;
    uint32_t ending = quantile(index, "all", "a", 1, 1, &by_share);
    wrong += !is_fair(ending);
    if (is_to_repeat(ending)) wrong += (ending = quantile(index, "all", "a", 1, 1, &by_share)) != BSI_OK;
    for (uint64_t other = 1; other < rows; other++) row = a[other] > a[row] ? other : row;
    wrong += !status && (by_rank.present != !!rows || (rows && by_rank.number != a[row]));
    wrong += !ending && (by_share.present != !!rows || (rows && by_share.number != a[row]));
}

/* Asks an index of the first rows, and sees that each answer that is given is right. */
static void question(bsi_index *index, uint64_t rows) {
    list_below_100(index, rows);
    groups_below_100(index, rows);
    pairs_below_30(index, rows);
    numbers_of_both(index, rows);
    greatest(index, rows);
    median(index, rows);
    select_below_100(index, rows);
}

/* Appends the rows from the first one on. Writes how many the index then has. */
static uint32_t append_from(bsi_index *index, uint64_t first, uint64_t *rows) {
    bsi_column columns[2] = {{a + first, ROWS - first, none, 0}, {b + first, ROWS - first, none, 0}};
    uint64_t row;
    size_t column;
    uint32_t status = bsi_append(index, 0, columns, 2, &row, &column);
    wrong += !is_fair(status) || column || (!status && row != ROWS - first) || (status && (row % 64 || row >= ROWS - first));
    wrong += bsi_rows(index, rows) != BSI_OK || *rows != first + row;
    return status;
}

/* Makes room for more rows than there are. */
static uint32_t reserve(bsi_index *index, uint64_t rows) {
    uint64_t found;
    uint32_t status = bsi_reserve(index, 2 * ROWS);
    wrong += !is_fair(status) || bsi_rows(index, &found) != BSI_OK || found != rows;
    return status;
}

static uint32_t open_two(bsi_index *index) {
    uint64_t bad;
    uint32_t status = opens(index, "column,a,slices,8\ncolumn,b,range,10 10\nlimit,1000\n", 1, &bad);
    wrong += !is_fair(status) || bad != 0 || index->full != !status;
    return status;
}

/* Asks for the groups of b in kinds. */
static void groups_in_kinds(bsi_index *index, uint64_t rows) {
    char line[1 << 12];
    size_t size = 0;
    uint32_t status = answer_line(index, "by b sum a all", line, sizeof line, &size);
    wrong += !is_fair(status);
    if (is_to_repeat(status)) wrong += (status = answer_line(index, "by b sum a all", line, sizeof line, &size)) != BSI_OK;
    wrong += !status && (memcmp(line, "groups", 6) || (rows && !memchr(line, '.', size)));
}

/* Gives the index kinds of its columns. */
static uint32_t set_kinds(bsi_index *index) {
    static const char text[] = "column,a,slices,8\ncolumn,b,range,10 10\nkind,a,decimal,1\nkind,b,text\ntext,b,Hill\n";
    uint8_t told[sizeof text];
    size_t size = 0;
    uint32_t status = bsi_set_kinds(index, (const uint8_t *)text, sizeof text - 1);
    wrong += !is_fair(status) || bsi_kinds(index, told, sizeof told, &size) != BSI_OK;
    wrong += size != (status ? 0 : sizeof text - 1) || memcmp(told, text, size);
    return status;
}

static uint32_t share(bsi_index *index, bsi_index *other, uint64_t rows) {
    uint64_t found;
    uint32_t status = bsi_share(index, other);
    wrong += !is_fair(status) || other->full != !status || bsi_rows(index, &found) != BSI_OK || found != rows;
    return status;
}

static uint32_t save(bsi_index *index, size_t *size) {
    uint32_t status = bsi_save(index, notes, sizeof notes, kept, sizeof kept, size);
    wrong += !is_fair(status);
    return status;
}

static uint32_t open_kept(bsi_index *index, size_t size) {
    size_t notes_len;
    uint64_t whole = 1;
    uint32_t status = bsi_open_kept(index, kept, size, notes, sizeof notes, &notes_len, &whole);
    wrong += !is_fair(status) || index->full != !status || (status && whole && whole != size)
        || (!status && (whole != size || notes_len != sizeof notes));
    return status;
}

/* Saves an index of the first rows, and opens it again. */
static void keep(bsi_index *index, uint64_t rows) {
    bsi_index opened = {0};
    size_t size = 0;
    uint32_t status = save(index, &size);
    if (is_to_repeat(status)) wrong += (status = save(index, &size)) != BSI_OK;
    if (status) return;
    status = open_kept(&opened, size);
    if (is_to_repeat(status)) wrong += (status = open_kept(&opened, size)) != BSI_OK;
    if (status) return;
    question(&opened, rows);
    bsi_close(&opened);
}

/* Uses an index from its opening to its closing. */
static void use(void) {
    bsi_index index = {0}, other = {0};
    uint64_t rows;
    uint32_t status = open_two(&index);
    if (is_to_repeat(status)) wrong += (status = open_two(&index)) != BSI_OK;
    if (status) return;
    status = append_from(&index, 0, &rows);
    if (is_to_repeat(status)) wrong += append_from(&index, rows, &rows) != BSI_OK || rows != ROWS;
    status = reserve(&index, rows);
    if (is_to_repeat(status)) wrong += (status = reserve(&index, rows)) != BSI_OK;
    question(&index, rows);
    status = set_kinds(&index);
    if (is_to_repeat(status)) wrong += (status = set_kinds(&index)) != BSI_OK;
    if (!status) groups_in_kinds(&index, rows);
    keep(&index, rows);
    status = share(&index, &other, rows);
    if (is_to_repeat(status)) wrong += (status = share(&index, &other, rows)) != BSI_OK;
    if (!status) {
        question(&other, rows);
        bsi_close(&other);
    }
    wrong += bsi_close(&index) != BSI_OK;
}

/* Uses an index once for each growth, with that one refused, and returns how many growths a use asks for. */
static long refuse_each(bool and_later) {
    all_later = and_later;
    for (long growth = 1; growth < 100000; growth++) {
        left = growth;
        was_refused = false;
        use();
        wrong += live != 0;
        if (!was_refused) return growth - 1;
    }
    return 0;
}

/* Compares what bsi_memory says of rows that fill their room with what is allocated for them, which is rounded up. */
static void measure(const char *schema, uint32_t feeders) {
    static int64_t numbers[MANY];
    bsi_index index = {0};
    bsi_column column = {numbers, MANY, none, 0};
    uint64_t bad, row, bytes = 0;
    size_t refused;
    char text[128];
    left = LONG_MAX;
    uint32_t status = opens(&index, schema, feeders, &bad);
    long before = live_bytes;
    status |= bsi_append(&index, 0, &column, 1, &row, &refused) | bsi_memory(&index, &bytes);
    long grown = live_bytes - before;
    snprintf(text, sizeof text, "bsi_memory counts what is allocated: %.*s", (int)strcspn(schema, "\n"), schema);
    check(!status && (long)bytes <= grown && grown - (long)bytes <= grown / 100, text);
    bsi_close(&index);
}

int main(void) {
    measure("column,x,slices,8\n", 1);
    measure("column,x,equality,2 3 4 50\n", 2);
    measure("column,x,range,2 3 4 50\n", 64);
    for (int k = 0; k < ROWS; k++) a[k] = k * 7 % 256, b[k] = k % 100;
    for (int and_later = 0; and_later < 2; and_later++) {
        char text[128];
        wrong = 0;
        long growths = refuse_each(and_later);
        snprintf(text, sizeof text, "each of %ld growths is refused in turn%s, and no block is left", growths,
                 and_later ? ", with all later ones" : ", alone");
        check(growths > 10 && wrong == 0, text);
    }
    return failed != 0;
}
