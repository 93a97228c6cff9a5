/* An index that is saved and opened again: the same answers, and no answer from bytes that are cut or changed. */
#include "check.h"

enum { ROWS = 150, ROOM = 4096 };

static const char *schema = "column,a,slices,9\ncolumn,b,range,10 10,-50\ncolumn,c,equality,3 2\nlimit,1000\n";
static const char *questions[] = {"count a < 200", "sum a b >= 0", "median b c = 2", "least c a > 100", "list b null",
                                  "greatest a all", "rank b 40 all", "list c >= 4 a <= 77 and"};
enum { QUESTIONS = sizeof questions / sizeof *questions };
static const uint8_t notes[] = "what the columns mean";

/* What an index answers to each question. */
typedef struct {
    uint32_t status[QUESTIONS];
    bsi_answer answers[QUESTIONS];
    bsi_place places[QUESTIONS][2 * ROWS];
    uint64_t rows;
} replies;

static uint8_t file[ROOM], bytes[2 * ROOM], given[BSI_MAX_NOTES];
static replies wanted, found;
static size_t size;

static void append(bsi_index *index, uint32_t feeder, size_t rows) {
    static int64_t a[ROWS], b[ROWS], c[ROWS];
    static uint8_t there[ROWS / 8 + 1];
    for (size_t k = 0; k < rows; k++) a[k] = next() % 512, b[k] = (int64_t)(next() % 100) - 50, c[k] = next() % 6;
    for (size_t k = 0; k < sizeof there; k++) there[k] = next();
    bsi_column columns[3] = {{a, rows, there, 0}, {b, rows, there, sizeof there}, {c, rows, there, 0}};
    uint64_t row;
    size_t column;
    check(bsi_append(index, feeder, columns, 3, &row, &column) == BSI_OK, "rows are appended");
}

static void ask_all(bsi_index *index, replies *into) {
    memset(into, 0, sizeof *into);
    for (int k = 0; k < QUESTIONS; k++)
        into->status[k] = ask(index, questions[k], &into->answers[k], into->places[k], 2 * ROWS);
    bsi_rows(index, &into->rows);
}

/* Opens bytes, and returns the status; *whole is how many of them keep an index. */
static uint32_t open_bytes(bsi_index *index, const uint8_t *from, size_t len, uint64_t *whole) {
    size_t notes_len = 0;
    *whole = UINT64_MAX;
    return bsi_open_kept(index, from, len, given, sizeof given, &notes_len, whole);
}

static void of_saving(bsi_index *index) {
    size_t needed = 0, after = 7;
    memset(bytes, 0xa5, sizeof bytes);
    check(bsi_save(index, notes, sizeof notes, bytes, 0, &needed) == BSI_NO_ROOM && needed % 8 == 0, "save: how much room is needed");
    check(bsi_save(index, notes, sizeof notes, bytes, needed - 1, &after) == BSI_NO_ROOM && after == needed, "save: a byte too little");
    check(bytes[0] == 0xa5, "save: nothing is written where there is too little room");
    check(bsi_save(index, notes, sizeof notes, bytes, sizeof bytes, &size) == BSI_OK && size == needed, "save");
    bool rest = true;
    for (size_t k = size; k < sizeof bytes; k++) rest &= bytes[k] == 0xa5;
    check(rest && size <= ROOM, "save: no byte behind the file is written");
    check(!memcmp(bytes, "bsikept\2", 8), "save: the bytes begin as a kept index does");
    memcpy(file, bytes, size);
    static uint8_t many[BSI_MAX_NOTES + 1];
    after = 7;
    check(bsi_save(index, many, sizeof many, bytes, sizeof bytes, &after) == BSI_LONG_NOTES && after == 7, "save: a byte of notes too many");
    check(bsi_save(index, many, BSI_MAX_NOTES, bytes, 0, &after) == BSI_NO_ROOM, "save: as many bytes of notes as may be");
}

static void of_opening(void) {
    bsi_index index = {0};
    size_t notes_len = 0;
    uint64_t whole = 0;
    uint8_t text[200];
    check(bsi_open_kept(&index, file, size, given, sizeof notes - 1, &notes_len, &whole) == BSI_NO_ROOM && notes_len == sizeof notes
              && whole == size && !index.at,
          "open: too little room for the notes");
    check(bsi_open_kept(&index, file, size, given, sizeof notes, &notes_len, &whole) == BSI_OK && whole == size, "open");
    check(notes_len == sizeof notes && !memcmp(given, notes, sizeof notes), "open: the notes are as they were");
    ask_all(&index, &found);
    check(!memcmp(&wanted, &found, sizeof found), "open: each answer is as it was");
    check(bsi_open_kept(&index, file, size, given, sizeof given, &notes_len, &whole) == BSI_OPEN && whole == 0, "open: an open handle");
    size_t again = 0;
    check(bsi_save(&index, given, sizeof notes, bytes, sizeof bytes, &again) == BSI_OK && again == size && !memcmp(bytes, file, size),
          "save: an index that was opened has the same bytes");
    check(bsi_schema(&index, text, sizeof text, &again) == BSI_OK && again < sizeof text, "schema: of an index that was opened");
    append(&index, 1, 10);
    ask_all(&index, &found);
    check(found.rows == wanted.rows + 10, "an index that was opened takes rows");
    bsi_close(&index);
}

static void of_segments(void) {
    bsi_index index = {0};
    uint64_t whole = 0;
    memcpy(bytes, file, size);
    memcpy(bytes + size, file, size);
    check(open_bytes(&index, bytes, 2 * size, &whole) == BSI_OK && whole == 2 * size, "open: two segments");
    ask_all(&index, &found);
    check(found.rows == 2 * wanted.rows && found.answers[0].count == 2 * wanted.answers[0].count, "open: the rows of both");
    bsi_close(&index);
    check(open_bytes(&index, bytes, 2 * size - 1, &whole) == BSI_CUT_SHORT && whole == size, "open: the second one is cut");
    bytes[2 * size - 20] ^= 1;
    check(open_bytes(&index, bytes, 2 * size, &whole) == BSI_DAMAGED && whole == size, "open: the second one is damaged");
    memset(bytes + size, 7, 16);
    check(open_bytes(&index, bytes, size + 16, &whole) == BSI_NOT_KEPT && whole == size, "open: something else behind the first");
    check(open_bytes(&index, bytes, whole, &whole) == BSI_OK, "open: what stands whole");
    bsi_close(&index);
}

static void of_many_segments(void) {
    enum { MANY = 1100, SEGMENT = 256 };
    static const char small[] = "column,x,slices,4\nlimit,2000\n";
    static uint8_t many[MANY * SEGMENT];
    bsi_index one = {0}, all = {0};
    uint64_t bad, row, rows = 0, whole = 0;
    size_t len = 0, column;
    int64_t nine = 9;
    bsi_column columns[1] = {{&nine, 1, NULL, 0}};
    bsi_answer sum = {0};
    bool is_saved = bsi_open(&one, (const uint8_t *)small, sizeof small - 1, 1, &bad) == BSI_OK;
    is_saved = is_saved && bsi_append(&one, 0, columns, 1, &row, &column) == BSI_OK;
    check(is_saved && bsi_save(&one, notes, 0, many, SEGMENT, &len) == BSI_OK, "save: an index of one row");
    bsi_close(&one);
    for (size_t k = 1; k < MANY; k++) memcpy(many + k * len, many, len);
    check(open_bytes(&all, many, MANY * len, &whole) == BSI_OK && whole == MANY * len, "open: 1,100 segments");
    bsi_rows(&all, &rows);
    check(rows == MANY && ask(&all, "sum x all", &sum, NULL, 0) == BSI_OK && sum.low == 9 * MANY, "open: the rows of all");
    bsi_close(&all);
}

static void of_each_byte(void) {
    long wrong = 0;
    for (size_t len = 0; len < size; len++) {
        bsi_index index = {0};
        uint64_t whole;
        uint32_t status = open_bytes(&index, file, len, &whole);
        wrong += status != (len ? BSI_CUT_SHORT : BSI_NOT_KEPT) || whole || index.at || index.full;
    }
    check(wrong == 0, "open: the bytes cut at each place are refused");
    for (size_t k = 0; k < size; k++) {
        for (int turned = 1; turned < 256; turned += k < 64 ? 1 : 37) {
            bsi_index index = {0};
            uint64_t whole;
            memcpy(bytes, file, size);
            bytes[k] ^= turned;
            uint32_t status = open_bytes(&index, bytes, size, &whole);
            wrong += status != BSI_DAMAGED && status != BSI_CUT_SHORT && status != BSI_NOT_KEPT && status != BSI_OTHER_VERSION;
            wrong += whole || index.at || index.full;
        }
    }
    check(wrong == 0, "open: each byte turned is refused");
    bsi_index index = {0};
    uint64_t whole;
    memcpy(bytes, file, size);
    bytes[7] = 3;
    check(open_bytes(&index, bytes, size, &whole) == BSI_OTHER_VERSION, "open: another version");
    bytes[0] = 'B';
    check(open_bytes(&index, bytes, size, &whole) == BSI_NOT_KEPT, "open: another file");
    check(open_bytes(&index, bytes, 0, &whole) == BSI_NOT_KEPT, "open: no byte");
}

static void put_word(uint8_t *at, uint64_t word) {
    for (int k = 0; k < 8; k++) at[k] = word >> 8 * k;
}

static uint64_t word_at(const uint8_t *at) {
    uint64_t word = 0;
    for (int k = 0; k < 8; k++) word |= (uint64_t)at[k] << 8 * k;
    return word;
}

/* A file whose text of kinds, which docs/FORMATS.md says how to write, is none. */
static void of_kinds(void) {
    uint64_t head = word_at(file + 8), sum = head + 1, whole = 0;
    size_t kinds = 16 + 8 * (4 + (sizeof notes + 7) / 8), behind = 16 + 8 * head;
    memcpy(bytes, file, kinds);
    put_word(bytes + 8, head + 1);
    put_word(bytes + kinds, 5);
    memcpy(bytes + kinds + 8, "kinds\0\0", 8);
    memcpy(bytes + kinds + 16, file + kinds + 8, size - kinds - 8);
    for (size_t at = 16; at < behind + 8; at += 8) {
        sum = (sum ^ word_at(bytes + at)) * 0x9e3779b97f4a7c15;
        sum = sum << 29 | sum >> 35;
    }
    put_word(bytes + behind + 8, sum);
    bsi_index index = {0};
    check(word_at(file + kinds) == 0, "open: no text of kinds was written");
    check(open_bytes(&index, bytes, size + 8, &whole) == BSI_BAD_KINDS && whole == size + 8 && !index.at, "open: a bad text of kinds");
    bytes[behind + 8] ^= 1;
    check(open_bytes(&index, bytes, size + 8, &whole) == BSI_DAMAGED && whole == 0, "open: another checksum of the head");
}

/* The head of a segment that has almost no bytes, and counts many: no memory is asked for before they are there. */
static void of_false_counts(void) {
    static const uint64_t counts[] = {1000, 1ull << 32, 1ull << 60, (1ull << 61) - 3, UINT64_MAX};
    long wrong = 0;
    for (size_t k = 0; k < sizeof counts / sizeof *counts; k++) {
        bsi_index index = {0};
        uint64_t whole;
        memcpy(bytes, file, 64);
        memcpy(bytes + 8, &counts[k], 8);
        wrong += open_bytes(&index, bytes, 64, &whole) != BSI_CUT_SHORT;
    }
    check(wrong == 0, "open: a count of words that are not there");
}

/* A file that stays in the repository for good, which the Python package saved. */
static void of_a_file_for_good(const char *name) {
    char path[sizeof __FILE__ + 64] = __FILE__;
    char *slash = strrchr(path, '/');
    strcpy(slash ? slash + 1 : path, name);
    FILE *from = fopen(path, "rb");
    check(from != NULL, "the file for good is there");
    if (!from) return;
    size_t len = fread(bytes, 1, sizeof bytes, from);
    fclose(from);
    bsi_index index = {0};
    uint64_t whole = 0;
    check(open_bytes(&index, bytes, len, &whole) == BSI_OK && whole == len, "open: a file that Python saved");
    bsi_answer count, sum;
    check(!ask(&index, "count rain null", &count, NULL, 0) && count.count == 1, "open: a count of it");
    check(!ask(&index, "sum c1 all", &sum, NULL, 0) && sum.low == (uint64_t)-23 && sum.high == UINT64_MAX, "open: a sum of it");
    bsi_close(&index);
}

int main(void) {
    bsi_index index = {0};
    uint64_t bad;
    size_t none = 7;
    check(bsi_save(&index, notes, sizeof notes, bytes, sizeof bytes, &none) == BSI_CLOSED && none == 7, "save: a closed handle");
    check(opens(&index, schema, 64, &bad) == BSI_OK, "an index of 64 feeders");
    append(&index, 0, ROWS / 2);
    append(&index, 63, ROWS / 2);
    ask_all(&index, &wanted);
    of_saving(&index);
    ask_all(&index, &found);
    check(!memcmp(&wanted, &found, sizeof found), "save: the index is as it was");
    bsi_close(&index);
    of_opening();
    of_segments();
    of_many_segments();
    of_each_byte();
    of_kinds();
    of_false_counts();
    of_a_file_for_good("../kept/weather-1.bsi");
    of_a_file_for_good("../kept/weather-2.bsi");
    return failed != 0;
}
