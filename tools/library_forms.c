/* Calls the library in every form, with what it refuses and what it lacks, on one thread and on four at once. Under a
   sanitizer of addresses it shows, too, that each call gives back what it took.

       library_forms DRAWING SCRIPT

   It says what differs from what docs/EDITING.md says of the exit number, and then ends with 1. */

#include "dgnedit.h"

#include <pthread.h>
#include <stdio.h>
#include <stdlib.h>
#include <string.h>

enum { ROOM = 1 << 20, SMALL = 3, THREADS = 4 };

struct form { uint32_t status; const char *words[5]; };     /* the words end with a null */
struct lack { const char *missing, *words[5]; };            /* the file that these words lack */

static const struct form FORMS[] = {
    {0, {"edit", "IN", "SCRIPT", "OUT"}},
    {1, {"edit", "IN", "REFUSED", "OUT"}},
    {0, {"pack", "IN", "SCRIPT", "OUT"}},
    {0, {"check", "IN"}},
    {0, {"gen", "7", "40", "OUT"}},
    {2, {"edit", "IN"}},
    {2, {0}},
    {3, {"edit", "IN", "BAD", "OUT"}},
    {4, {"edit", "TEXT", "SCRIPT", "OUT"}},
    {10, {"apply", "IN", "TEXT", "OUT"}},
};

static const struct lack LACKS[] = {
    {"NOWHERE", {"check", "NOWHERE"}},
    {"MISSING", {"edit", "IN", "MISSING", "OUT"}},
    {"second.dgn", {"pack", "IN", "IMPORTS", "OUT"}},
    {"NO-PATCH", {"apply", "IN", "NO-PATCH", "OUT"}},
};

enum { FILES = 7 };

static dgnedit_file files[FILES];
static uint8_t *drawing, *script;

static dgnedit_bytes text(const char *chars) { return (dgnedit_bytes){(const uint8_t *)chars, strlen(chars)}; }

static uint8_t *read_file(const char *path, dgnedit_bytes *bytes)
{
    uint8_t *at = malloc(ROOM);
    FILE *stream = fopen(path, "rb");
    if (at == NULL || stream == NULL) exit(2);
    *bytes = (dgnedit_bytes){at, fread(at, 1, ROOM, stream)};
    fclose(stream);
    return at;
}

/* One run; with buffers that are too small it has to end so, too. */
static dgnedit_ended run(const char *const *words, const dgnedit_file *given, uint8_t *said, uint8_t *made, int *wrong)
{
    dgnedit_bytes list[5] = {text("")};
    size_t count = 0;
    for (; words[count] != NULL; count++) list[count] = text(words[count]);
    dgnedit_ended small = dgnedit_run(list, count, given, FILES, said, SMALL, made, SMALL);
    dgnedit_ended ended = dgnedit_run(list, count, given, FILES, said, ROOM, made, ROOM);
    if (small.status != ended.status || small.text_length != ended.text_length
        || small.file_length != ended.file_length)
        *wrong = 1;
    return ended;
}

/* Whether a run ended for want of this file, and names it. */
static bool lacks(const char *missing, dgnedit_ended ended, const uint8_t *said)
{
    return ended.status == DGNEDIT_FILE_MISSING && ended.text_length == strlen(missing)
        && memcmp(said, missing, ended.text_length) == 0;
}

/* All forms, and a patch file that is packed and applied. */
static void *run_all(void *out)
{
    static const char *const PACK[] = {"pack", "IN", "SCRIPT", "OUT", NULL};
    static const char *const APPLY[] = {"apply", "IN", "PATCH", "OUT", NULL};
    int *wrong = out;
    uint8_t *said = malloc(ROOM), *made = malloc(ROOM), *patch = malloc(ROOM);
    if (said == NULL || made == NULL || patch == NULL) exit(2);
    for (size_t i = 0; i < sizeof FORMS / sizeof *FORMS; i++)
        if (run(FORMS[i].words, files, said, made, wrong).status != FORMS[i].status) *wrong = 1;
    for (size_t i = 0; i < sizeof LACKS / sizeof *LACKS; i++)
        if (!lacks(LACKS[i].missing, run(LACKS[i].words, files, said, made, wrong), said)) *wrong = 1;
    dgnedit_file given[FILES];
    memcpy(given, files, sizeof files);
    size_t length = run(PACK, files, said, made, wrong).file_length;
    memcpy(patch, made, length);
    given[5] = (dgnedit_file){text("PATCH"), {patch, length}};
    if (run(APPLY, given, said, made, wrong).status != 0) *wrong = 1;
    free(said);
    free(made);
    free(patch);
    return NULL;
}

int main(int count, char **arguments)
{
    if (count != 3) return 2;
    files[0].name = text("IN");
    files[1].name = text("SCRIPT");
    drawing = read_file(arguments[1], &files[0].bytes);
    script = read_file(arguments[2], &files[1].bytes);
    files[2] = (dgnedit_file){text("BAD"), text("move 1\n")};
    files[3] = (dgnedit_file){text("TEXT"), text("no drawing, and no patch file")};
    const char *refused = "import IN 5 5\nshow\nundo\nfence 0,0 9,0 9,9\nselect inside\nmove 9999 1 1\n";
    files[4] = (dgnedit_file){text("REFUSED"), text(refused)};
    files[5] = (dgnedit_file){text("EMPTY"), text("")};
    files[6] = (dgnedit_file){text("IMPORTS"), text("import IN\nimport second.dgn\nimport third.dgn\n")};
    int wrong[THREADS + 1] = {0}, sum = 0;
    pthread_t threads[THREADS];
    run_all(&wrong[THREADS]);
    for (int i = 0; i < THREADS; i++)
        if (pthread_create(&threads[i], NULL, run_all, &wrong[i]) != 0) return 2;
    for (int i = 0; i < THREADS; i++) pthread_join(threads[i], NULL);
    for (int i = 0; i <= THREADS; i++) sum += wrong[i];
    if (sum > 0) printf("%d of %d threads had a run that ended otherwise\n", sum, THREADS + 1);
    free(drawing);
    free(script);
    return sum > 0;
}
