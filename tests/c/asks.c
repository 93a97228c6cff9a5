/* Opens the file of a saved index that its first word names, and answers the questions of its input as `bsi ask` does: of an
 * index of whole numbers by bsi_ask, or, with a second word, by bsi_answer_line. Then it saves the index in the file that the
 * second word names. */
#include "check.h"

static uint8_t notes[BSI_MAX_NOTES];

/* Reads a file into bytes of its own. */
static uint8_t *read_file(const char *path, size_t *len) {
    FILE *from = fopen(path, "rb");
    if (!from || fseek(from, 0, SEEK_END)) exit(2);
    *len = ftell(from);
    rewind(from);
    uint8_t *bytes = malloc(*len + 1);
    if (!bytes || fread(bytes, 1, *len, from) != *len) exit(2);
    fclose(from);
    return bytes;
}

static int by_feeder(const void *a, const void *b) {
    const bsi_place *x = a, *y = b;
    return x->feeder != y->feeder ? (x->feeder > y->feeder) - (x->feeder < y->feeder) : (x->row > y->row) - (x->row < y->row);
}

static void print_sum(uint64_t low, uint64_t high) {
    unsigned __int128 left = (unsigned __int128)high << 64 | low;
    char digits[41] = "", *at = digits + sizeof digits - 1;
    if (high >> 63) left = -left;
    do *--at = '0' + left % 10;
    while (left /= 10);
    printf("sum %s%s\n", high >> 63 ? "-" : "", at);
}

static void print_answer(const bsi_answer *answer, bsi_place *places) {
    if (answer->kind == BSI_COUNT) printf("count %llu\n", (unsigned long long)answer->count);
    if (answer->kind == BSI_SUM) print_sum(answer->low, answer->high);
    if (answer->kind == BSI_VALUE && answer->present) printf("value %lld\n", (long long)answer->value);
    if (answer->kind == BSI_VALUE && !answer->present) puts("none");
    if (answer->kind != BSI_ROWS) return;
    qsort(places, answer->count, sizeof *places, by_feeder);
    printf("rows");
    for (uint64_t k = 0; k < answer->count; k++) printf(" %u:%llu", places[k].feeder, (unsigned long long)places[k].row);
    puts("");
}

static void answer_all(bsi_index *index) {
    char line[1000];
    uint64_t rows = 0;
    bsi_rows(index, &rows);
    bsi_place *places = malloc((rows + 1) * sizeof *places);
    while (places && fgets(line, sizeof line, stdin)) {
        bsi_answer answer;
        line[strcspn(line, "\n")] = 0;
        for (char *at = line; *at; at++) *at = *at == ',' ? ' ' : *at;
        uint32_t status = ask(index, line, &answer, places, rows);
        if (status == BSI_OK) print_answer(&answer, places);
        if (status != BSI_OK) puts(status == BSI_BAD_QUERY ? "bad" : bsi_status_text(status));
    }
    free(places);
}

static void write_lines(bsi_index *index) {
    static char record[1000], line[1 << 20];
    while (fgets(record, sizeof record, stdin)) {
        size_t size = 0;
        record[strcspn(record, "\n")] = 0;
        for (char *at = record; *at; at++) *at = *at == ',' ? ' ' : *at;
        uint32_t status = answer_line(index, record, line, sizeof line, &size);
        if (status == BSI_OK) fwrite(line, 1, size, stdout);
        if (status != BSI_OK) puts(bsi_status_text(status));
    }
}

/* Saves the index in a file. */
static bool save_file(bsi_index *index, const char *path) {
    size_t size = 0;
    bsi_save(index, NULL, 0, NULL, 0, &size);
    uint8_t *bytes = malloc(size);
    FILE *to = fopen(path, "wb");
    bool is_saved = bytes && to && bsi_save(index, NULL, 0, bytes, size, &size) == BSI_OK && fwrite(bytes, 1, size, to) == size;
    free(bytes);
    return to && fclose(to) == 0 && is_saved;
}

int main(int count, char **words) {
    if (count < 2) return 2;
    bsi_index index = {0};
    size_t len = 0, notes_len = 0;
    uint64_t whole = 0;
    uint8_t *bytes = read_file(words[1], &len);
    uint32_t status = bsi_open_kept(&index, bytes, len, notes, sizeof notes, &notes_len, &whole);
    free(bytes);
    if (status == BSI_OK && count == 2) answer_all(&index);
    if (status == BSI_OK && count > 2) {
        write_lines(&index);
        status = save_file(&index, words[2]) ? BSI_OK : BSI_NO_MEMORY;
    }
    if (status != BSI_OK) puts(bsi_status_text(status));
    bsi_close(&index);
    return status != BSI_OK;
}
