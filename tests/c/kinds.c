/* The text of kinds of an index: it is set, told, saved and opened again, and one of other columns is refused. */
#include "check.h"

#define COLUMNS "column,price,slices,20,-500\ncolumn,station,slices,2\nlimit,1000\n"
#define KINDS COLUMNS "title,price,Amount (EUR)\nkind,price,decimal,2\nkind,station,text\ntext,station,Hill\ntext,station,\"Lake, east\"\n"

static uint8_t bytes[4096], again[4096], told[512];
static int64_t price[4] = {1250, -5, 99, 0}, station[4] = {0, 1, 1, 0};
static uint8_t valid[1] = {7};

static uint32_t set_kinds(bsi_index *index, const char *text) { return bsi_set_kinds(index, (const uint8_t *)text, strlen(text)); }

/* Returns whether the index tells this text of kinds. */
static bool tells(bsi_index *index, const char *text) {
    size_t size = 7;
    memset(told, 0xa5, sizeof told);
    return bsi_kinds(index, told, sizeof told, &size) == BSI_OK && size == strlen(text) && !memcmp(told, text, size) && told[size] == 0xa5;
}

static void open_two(bsi_index *index) {
    uint64_t bad, row;
    size_t column;
    bsi_column columns[2] = {{price, 4, valid, 1}, {station, 4, valid, 0}};
    bool is_open = opens(index, COLUMNS, 1, &bad) == BSI_OK;
    check(is_open && bsi_append(index, 0, columns, 2, &row, &column) == BSI_OK, "an index of whole numbers");
}

static void of_setting(bsi_index *index) {
    static char many[BSI_MAX_KINDS + 2];
    size_t size = 7;
    check(tells(index, ""), "kinds: none at first");
    check(set_kinds(index, "kinds") == BSI_BAD_KINDS && set_kinds(index, "\n") == BSI_BAD_KINDS, "set_kinds: no text of kinds");
    check(set_kinds(index, "column,price,slices,20,-500\nkind,price,decimal,2\n") == BSI_BAD_KINDS, "set_kinds: a column is missing");
    check(set_kinds(index, "column,price,slices,20,-501\ncolumn,station,slices,2\n") == BSI_BAD_KINDS, "set_kinds: another offset");
    check(set_kinds(index, KINDS "kind,price,decimal,3\n") == BSI_BAD_KINDS, "set_kinds: two kinds of a column");
    memset(many, '\n', sizeof many - 1);
    memcpy(many, KINDS, strlen(KINDS));
    check(set_kinds(index, many) == BSI_BAD_KINDS && tells(index, ""), "set_kinds: a byte too many, and the kinds are as before");
    check(set_kinds(index, KINDS) == BSI_OK && tells(index, KINDS), "set_kinds: they are told");
    check(bsi_kinds(index, told, strlen(KINDS) - 1, &size) == BSI_NO_ROOM && size == strlen(KINDS), "kinds: a byte too little");
    check(bsi_kinds(index, NULL, 0, &size) == BSI_NO_ROOM && size == strlen(KINDS), "kinds: null and no room");
    check(set_kinds(index, "x") == BSI_BAD_KINDS && tells(index, KINDS), "set_kinds: others are refused, and these stay");
}

static void of_numbers(bsi_index *index) {
    bsi_answer sum;
    check(ask(index, "sum price all", &sum, NULL, 0) == BSI_OK && sum.low == 1344, "ask: in whole numbers");
    check(ask(index, "count station = 1", &sum, NULL, 0) == BSI_OK && sum.count == 2, "ask: a text by its number");
    check(ask(index, "count price = 12.50", &sum, NULL, 0) == BSI_BAD_QUERY, "ask: no decimal");
}

/* Returns whether a record is answered by this line. */
static bool answers(bsi_index *index, const char *record, const char *line) {
    char found[200];
    size_t size = 7;
    memset(found, 0x5a, sizeof found);
    uint32_t status = answer_line(index, record, found, sizeof found, &size);
    return status == BSI_OK && size == strlen(line) && !memcmp(found, line, size) && found[size] == 0x5a;
}

static void of_lines(bsi_index *index) {
    size_t size = 7;
    char line[4] = "abc";
    check(answers(index, "sum price all", "sum 13.44\n"), "answer_line: a sum of decimals");
    check(answers(index, "count price >= 12.495", "count 1\n"), "answer_line: a constant between two values");
    check(answers(index, "by station count all", "groups Hill=2 \"Lake, east\"=2\n"), "answer_line: groups of texts");
    check(answers(index, "top price 1 station = Hill", "top 0:0=12.50\n"), "answer_line: first rows");
    check(answers(index, "median station price null", "value Hill\n"), "answer_line: a text");
    check(answers(index, "count Amount all", "bad\n"), "answer_line: no question");
    check(answer_line(index, "count all", line, 3, &size) == BSI_NO_ROOM && size == 8 && !memcmp(line, "abc", 4), "answer_line: too little room");
}

static void of_saving(bsi_index *index) {
    bsi_index opened = {0}, other = {0};
    size_t size = 0, len = 0, notes_len = 0;
    uint64_t whole = 0;
    check(bsi_save(index, NULL, 0, bytes, sizeof bytes, &size) == BSI_OK, "save: an index of kinds");
    check(bsi_open_kept(&opened, bytes, size, NULL, 0, &notes_len, &whole) == BSI_OK && whole == size && !notes_len, "open: an index of kinds");
    check(tells(&opened, KINDS), "open: its kinds");
    of_numbers(&opened);
    of_lines(&opened);
    check(bsi_save(&opened, NULL, 0, again, sizeof again, &len) == BSI_OK && len == size && !memcmp(again, bytes, len), "save: the same bytes again");
    check(bsi_share(&opened, &other) == BSI_OK && tells(&other, KINDS) && tells(&opened, KINDS), "share: both handles have the kinds");
    check(set_kinds(&other, "") == BSI_SHARED && tells(&other, KINDS), "set_kinds: a shared index");
    bsi_close(&other);
    bsi_close(&opened);
    memcpy(bytes + size, bytes, size);
    check(bsi_open_kept(&opened, bytes, 2 * size, NULL, 0, &notes_len, &whole) == BSI_OK && tells(&opened, KINDS), "open: two segments of kinds");
    check(set_kinds(&opened, "") == BSI_OK && tells(&opened, ""), "set_kinds: none");
    bsi_close(&opened);
}

int main(void) {
    bsi_index index = {0};
    size_t size = 7;
    check(set_kinds(&index, KINDS) == BSI_CLOSED, "set_kinds: a closed handle");
    check(bsi_kinds(&index, told, sizeof told, &size) == BSI_CLOSED && size == 7, "kinds: a closed handle");
    check(answer_line(&index, "count all", NULL, 0, &size) == BSI_CLOSED && size == 7, "answer_line: a closed handle");
    open_two(&index);
    check(answers(&index, "sum price all", "sum 1344\n"), "answer_line: whole numbers");
    check(answers(&index, "count station = Hill", "bad\n"), "answer_line: no kinds, and no text");
    of_setting(&index);
    of_numbers(&index);
    of_lines(&index);
    of_saving(&index);
    bsi_close(&index);
    return failed != 0;
}
