/* Eight threads ask one index, each by a handle of its own, and close it in any order. */
#include "check.h"
#include <pthread.h>

enum { THREADS = 8, ROWS = 5000, TURNS = 50 };

static int64_t numbers[ROWS];
static uint8_t none[1];
static bsi_index handles[THREADS];
static long wrong[THREADS];

static void *asks(void *at) {
    int own = (int)(intptr_t)at;
    uint64_t words[(ROWS + 63) / 64];
    for (int turn = 0; turn < TURNS; turn++) {
        char predicate[32], query[40];
        int64_t bound = (own * TURNS + turn) * 37 % 1000;
        uint64_t count = 0;
        bsi_answer answer = {0};
        bsi_place none_wanted[1];
        snprintf(predicate, sizeof predicate, "x < %lld", (long long)bound);
        snprintf(query, sizeof query, "count %s", predicate);
        wrong[own] += ask(&handles[own], query, &answer, none_wanted, 0) != BSI_OK;
        wrong[own] += selects(&handles[own], predicate, words, (ROWS + 63) / 64) != BSI_OK;
        for (size_t row = 0; row < ROWS; row++) {
            count += numbers[row] < bound;
            wrong[own] += (words[row / 64] >> (row % 64) & 1) != (numbers[row] < bound);
        }
        wrong[own] += answer.count != count;
    }
    wrong[own] += bsi_close(&handles[own]) != BSI_OK;
    return NULL;
}

int main(void) {
    pthread_t threads[THREADS];
    uint64_t bad, row;
    size_t refused;
    long all = 0;
    for (size_t k = 0; k < ROWS; k++) numbers[k] = next() % 1000;
    bsi_column column = {numbers, ROWS, none, 0};
    all += opens(&handles[0], "column,x,range,10 10 10\n", 1, &bad) != BSI_OK;
    all += bsi_append(&handles[0], 0, &column, 1, &row, &refused) != BSI_OK;
    for (int k = 1; k < THREADS; k++) all += bsi_share(&handles[0], &handles[k]) != BSI_OK;
    for (int k = 0; k < THREADS; k++) all += pthread_create(&threads[k], NULL, asks, (void *)(intptr_t)k) != 0;
    for (int k = 0; k < THREADS; k++) all += pthread_join(threads[k], NULL) != 0 || wrong[k];
    check(all == 0, "eight threads with a handle each get right answers at once");
    return failed != 0;
}
