/* threads FILE: four threads read, check and convert the same bytes, each into memory of its own, and compare with what
 * the first pass gave. */
#include <faxpages.h>
#include <pthread.h>
#include <stdio.h>
#include <stdlib.h>
#include <string.h>

enum { THREADS = 4, PASSES = 20, ROWS = 4096, ROOM = 1 << 20 };

static uint8_t file[1 << 20];
static size_t len;

/* What one pass gives: all rows, and the file converted. */
struct pass {
    struct faxpages_row rows[ROWS];
    uint8_t out[ROOM], converted[ROOM];
    struct faxpages_told told;
    struct faxpages_converted tells;
    struct faxpages_report report;
    uint32_t statuses[3];
};

static struct pass first;

static void make(struct pass *pass) {
    struct faxpages_options options = {2, 1, 4, 3, 1};
    struct faxpages_note note;
    memset(pass, 0, sizeof *pass);
    pass->statuses[0] = faxpages_rows(file, len, 0, 0, pass->rows, ROWS, pass->out, ROOM, &pass->told);
    pass->statuses[1] = faxpages_convert(file, len, &options, pass->converted, ROOM, &pass->tells);
    pass->statuses[2] = faxpages_check(file, len, &note, 1, &pass->report);
}

static void *work(void *other) {
    struct pass *pass = malloc(sizeof *pass);
    int i;
    if (!pass) *(int *)other = 1;
    for (i = 0; pass && i < PASSES; i++) {
        make(pass);
        if (memcmp(pass, &first, sizeof first)) *(int *)other = 1;
    }
    free(pass);
    return NULL;
}

int main(int count, char **words) {
    FILE *in = count == 2 ? fopen(words[1], "rb") : NULL;
    pthread_t threads[THREADS];
    int other[THREADS] = {0}, i, any = 0;
    if (!in) return 2;
    len = fread(file, 1, sizeof file, in);
    fclose(in);
    make(&first);
    for (i = 0; i < THREADS; i++)
        if (pthread_create(&threads[i], NULL, work, &other[i])) return 3;
    for (i = 0; i < THREADS; i++) {
        pthread_join(threads[i], NULL);
        any |= other[i];
    }
    return any;
}
