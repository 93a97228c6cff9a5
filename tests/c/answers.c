/* Answers and masks over many rows of three columns, each compared with a plain loop over the arrays. */
#include "check.h"

enum { ROWS = 100003, WORDS = (ROWS + 63) / 64 };

static int64_t plain[3][ROWS];
static uint8_t valid[(ROWS + 7) / 8];
static uint64_t words[WORDS];
static bsi_place places[ROWS];
static const char *names[3] = {"a", "b", "c"};
static const int64_t constants[3] = {345678, 12, 2500};
static const char *signs[6] = {"=", "!=", "<", "<=", ">", ">="};

static bool is_there(int column, size_t row) { return column != 1 || (valid[row / 8] >> (row % 8) & 1); }

static bool holds(int sign, int64_t x, int64_t y) {
    bool each[6] = {x == y, x != y, x < y, x <= y, x > y, x >= y};
    return each[sign];
}

static int by_number(const void *a, const void *b) {
    int64_t x = *(const int64_t *)a, y = *(const int64_t *)b;
    return (x > y) - (x < y);
}

static void fill(void) {
    for (size_t row = 0; row < ROWS; row++) {
        plain[0][row] = next() % (1 << 20);
        plain[1][row] = (int64_t)(next() % 1000) - 400;
        plain[2][row] = next() % 5000;
        if (next() % 10) valid[row / 8] |= 1 << (row % 8);
    }
}

/* Compares one comparison's count, mask and rows. */
static void compare(bsi_index *index, int column, int sign) {
    char predicate[64], query[80], text[128];
    snprintf(predicate, sizeof predicate, "%s %s %lld", names[column], signs[sign], (long long)constants[column]);
    snprintf(query, sizeof query, "count %s", predicate);
    bsi_answer answer = {0}, listed = {0};
    uint32_t status = ask(index, query, &answer, places, 0) | selects(index, predicate, words, WORDS);
    snprintf(query, sizeof query, "list %s", predicate);
    status |= ask(index, query, &listed, places, ROWS);
    size_t found = 0, wrong = 0;
    for (size_t row = 0; row < WORDS * 64; row++) {
        bool want = row < ROWS && is_there(column, row) && holds(sign, plain[column][row], constants[column]);
        wrong += want != (words[row / 64] >> (row % 64) & 1);
        if (want) wrong += found >= listed.count || places[found].row != row || places[found].feeder != 0;
        found += want;
    }
    snprintf(text, sizeof text, "%s: count, list and each bit of the mask are those of a loop", predicate);
    check(!status && answer.kind == BSI_COUNT && answer.count == found && listed.count == found && !wrong, text);
}

/* Compares the totals of a column over the rows where b is below 12. */
static void total(bsi_index *index, int column) {
    static int64_t found[ROWS];
    size_t count = 0;
    int64_t sum = 0;
    for (size_t row = 0; row < ROWS; row++)
        if (is_there(1, row) && plain[1][row] < 12 && is_there(column, row)) sum += found[count++] = plain[column][row];
    qsort(found, count, sizeof *found, by_number);
    struct {
        const char *word;
        int64_t want;
    } each[] = {{"least", found[0]}, {"greatest", found[count - 1]}, {"median", found[(count - 1) / 2]}};
    char query[80], text[128];
    bsi_answer answer = {0};
    snprintf(query, sizeof query, "sum %s b < 12", names[column]);
    bool right = !ask(index, query, &answer, places, 0) && answer.kind == BSI_SUM && answer.low == (uint64_t)sum
        && answer.high == (sum < 0 ? UINT64_MAX : 0);
    for (size_t k = 0; k < 3; k++) {
        snprintf(query, sizeof query, "%s %s b < 12", each[k].word, names[column]);
        right &= !ask(index, query, &answer, places, 0) && answer.kind == BSI_VALUE && answer.present;
        right &= answer.value == each[k].want;
    }
    for (size_t part = 0; part <= 7; part++) {
        size_t rank = part * count / 7;
        snprintf(query, sizeof query, "rank %s %zu b < 12", names[column], rank);
        right &= !ask(index, query, &answer, places, 0) && answer.kind == BSI_VALUE && answer.present == (rank < count);
        right &= rank >= count || answer.value == found[rank];
    }
    snprintf(text, sizeof text, "%s: sum, least, greatest, median and ranks are those of a loop", names[column]);
    check(right, text);
}

/* Compares the sums of c over the rows of each entry of b where a is below a constant. */
static void group(bsi_index *index) {
    static bsi_group groups[1002];
    static int64_t sums[1001];
    static bool there[1001];
    size_t count = 0, at = 0, wrong = 0;
    for (size_t row = 0; row < ROWS; row++) {
        if (plain[0][row] >= constants[0]) continue;
        size_t entry = is_there(1, row) ? plain[1][row] + 400 : 1000;
        there[entry] = true;
        sums[entry] += plain[2][row];
    }
    uint32_t status = group_by(index, "sum c a < 345678", "b", groups, 1002, &count);
    for (size_t entry = 0; entry < 1001; entry++) {
        if (!there[entry]) continue;
        bsi_group *found = &groups[at++];
        wrong += found->present != (entry < 1000) || (entry < 1000 && found->entry != (int64_t)entry - 400);
        wrong += found->answer.kind != BSI_SUM || found->answer.low != (uint64_t)sums[entry] || found->answer.high != 0;
    }
    check(!status && count == at && !wrong, "the groups of a column and their sums are those of a loop");
    check(group_by(index, "count all", "b", groups, 1000, &count) == BSI_NO_ROOM && count == at, "groups want room");
    check(group_by(index, "list b = 1", "b", groups, 1, &count) == BSI_OK && count == 1 && groups[0].entry == 1
              && groups[0].answer.kind == BSI_ROWS && groups[0].answer.count > 1,
          "rows of a group are counted");
    check(group_by(index, "count all", "d", groups, 1002, &count) == BSI_BAD_QUERY && count == 1, "no column, no groups");
}

/* Orders rows by their entries of b, null last, and then of c. */
static int by_pair(const void *a, const void *b) {
    size_t x = *(const size_t *)a, y = *(const size_t *)b;
    bool there = is_there(1, x);
    if (there != is_there(1, y)) return there ? -1 : 1;
    if (there && plain[1][x] != plain[1][y]) return plain[1][x] < plain[1][y] ? -1 : 1;
    return (plain[2][x] > plain[2][y]) - (plain[2][x] < plain[2][y]);
}

/* Compares the sums of a over the rows of each pair of entries of b and c where a is below 5,000. */
static void group_by_pairs(bsi_index *index) {
    static size_t rows[ROWS];
    static bsi_pair pairs[ROWS];
    size_t many = 0, count = 0, at = 0, wrong = 0;
    for (size_t row = 0; row < ROWS; row++)
        if (plain[0][row] < 5000) rows[many++] = row;
    qsort(rows, many, sizeof *rows, by_pair);
    uint32_t status = group_by_two(index, "sum a a < 5000", "b", "c", pairs, ROWS, &count);
    for (size_t first = 0, end; first < many; first = end, at++) {
        const bsi_pair *found = &pairs[at];
        bool there = is_there(1, rows[first]);
        uint64_t sum = 0;
        for (end = first; end < many && !by_pair(&rows[first], &rows[end]); end++) sum += plain[0][rows[end]];
        wrong += found->entries[0].present != there || (there && found->entries[0].number != plain[1][rows[first]]);
        wrong += !found->entries[1].present || found->entries[1].number != plain[2][rows[first]];
        wrong += found->answer.kind != BSI_SUM || found->answer.low != sum || found->answer.high != 0;
    }
    check(!status && many > 0 && count == at && !wrong, "the groups of two columns and their sums are those of a loop");
    check(group_by_two(index, "count a < 5000", "b", "c", pairs, at - 1, &count) == BSI_NO_ROOM && count == at, "pairs want room");
    check(group_by_two(index, "count b = 1", "b", "b", pairs, 1, &count) == BSI_OK && count == 1 && pairs[0].entries[0].number == 1
              && pairs[0].entries[1].number == 1 && pairs[0].answer.kind == BSI_COUNT && pairs[0].answer.count > 1,
          "a column is grouped by itself");
    check(group_by_two(index, "count all", "b", "d", pairs, ROWS, &count) == BSI_BAD_QUERY && count == 1, "no column, no pairs");
}

static int which;

/* Orders rows by their entries of a column, the greatest first, and then by position. */
static int by_entry(const void *a, const void *b) {
    size_t x = *(const size_t *)a, y = *(const size_t *)b;
    if (plain[which][x] != plain[which][y]) return plain[which][x] > plain[which][y] ? -1 : 1;
    return (x > y) - (x < y);
}

/* Compares the first rows, the ranks and the number of different entries of a column where b is below 12. */
static void numbers(bsi_index *index, int column) {
    static size_t rows[ROWS];
    static bsi_row found[ROWS];
    size_t many = 0, listed = 0;
    uint64_t different = 0, count = 0;
    for (size_t row = 0; row < ROWS; row++)
        if (is_there(1, row) && plain[1][row] < 12 && is_there(column, row)) rows[many++] = row;
    which = column;
    qsort(rows, many, sizeof *rows, by_entry);
    for (size_t k = 0; k < many; k++) different += k == 0 || plain[column][rows[k]] != plain[column][rows[k - 1]];
    char text[128];
    snprintf(text, sizeof text, "%s: the different numbers are those of a loop", names[column]);
    check(!distinct(index, "b < 12", names[column], &count) && count == different, text);
    uint64_t wanted[4] = {many / 2, 0, many, many - 1};
    bsi_entry at[4];
    bool right = !ranks(index, "b < 12", names[column], wanted, 4, at, 4);
    for (size_t k = 0; k < 4; k++) {
        right &= at[k].present == (wanted[k] < many);
        right &= wanted[k] >= many || at[k].number == plain[column][rows[many - 1 - wanted[k]]];
    }
    snprintf(text, sizeof text, "%s: the numbers of ranks are those of a loop", names[column]);
    check(right, text);
    right = true;
    for (size_t part = 0; part <= 20; part++) {
        right &= !quantile(index, "b < 12", names[column], part, 20, at) && at->present;
        right &= at->number == plain[column][rows[many - 1 - (many - 1) * part / 20]];
    }
    snprintf(text, sizeof text, "%s: quantiles are those of a loop", names[column]);
    check(right, text);
    right = !top(index, "b < 12", names[column], false, found, 1000, &listed) && listed == (many < 1000 ? many : 1000);
    for (size_t k = 0; k < listed; k++) right &= found[k].row == rows[k] && found[k].number == plain[column][rows[k]];
    right &= !top(index, "b < 12", names[column], true, found, ROWS, &listed) && listed == many;
    for (size_t k = 1; k < listed; k++)
        right &= found[k - 1].number < found[k].number || (found[k - 1].number == found[k].number && found[k - 1].row < found[k].row);
    snprintf(text, sizeof text, "%s: the first rows are those of a loop", names[column]);
    check(right, text);
}

int main(void) {
    fill();
    bsi_index index = {0};
    bsi_answer answer = {0};
    uint64_t bad, row, rows;
    size_t refused;
    const char *schema = "column,a,slices,20\ncolumn,b,range,10 10 10,-400\ncolumn,c,equality,70 72\nlimit,200000\n";
    check(!opens(&index, schema, 1, &bad) && bad == 0, "an index is opened");
    bsi_column columns[3] = {{plain[0], ROWS, valid, 0}, {plain[1], ROWS, valid, sizeof valid}, {plain[2], ROWS, valid, 0}};
    check(!bsi_append(&index, 0, columns, 3, &row, &refused) && row == ROWS && refused == 0, "rows are appended");
    check(!bsi_rows(&index, &rows) && rows == ROWS, "the rows are counted");
    for (int column = 0; column < 3; column++)
        for (int sign = 0; sign < 6; sign++) compare(&index, column, sign);
    for (int column = 0; column < 3; column++) total(&index, column);
    for (int column = 0; column < 3; column++) numbers(&index, column);
    group(&index);
    group_by_pairs(&index);
    check(!ask(&index, "least a a < 0", &answer, places, 0) && answer.kind == BSI_VALUE && !answer.present, "there may be no least");
    size_t nulls = 0;
    for (size_t r = 0; r < ROWS; r++) nulls += !is_there(1, r);
    check(!ask(&index, "count b null", &answer, places, 0) && answer.count == nulls, "nulls are counted");
    uint8_t text[200];
    size_t size = 0;
    check(!bsi_schema(&index, text, sizeof text, &size) && size == strlen(schema) && !memcmp(text, schema, size),
          "the schema comes back as the text that opened the index");
    check(!bsi_close(&index) && !index.full, "the index is closed");
    return failed != 0;
}
