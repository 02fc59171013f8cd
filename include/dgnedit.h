/* dgnedit as a library: the program over files in memory. It needs nothing but the C library's malloc, realloc and free,
   and what moves memory. docs/LIBRARY.md has an example, and says what is proved.

   What a caller owes:
   - Each pointer is valid for so many bytes or entries as the length beside it says, which is below 2^63; where that is 0,
     the pointer may be any, NULL too.
   - The two buffers overlap neither each other nor what is handed in, and nobody else writes to any of it during the call.
   - malloc, realloc and free come from one allocator, and a block lies at each power of two up to 16 that divides its size.
   - The call isn't made from a signal handler, nor from the forked child of a process with threads. It can be made on
     several threads, each with buffers of its own.

   Nothing that the bytes, words and names hold can break the call. It reads and writes no file and prints nothing. */

#ifndef DGNEDIT_H
#define DGNEDIT_H

#include <stdbool.h>
#include <stddef.h>
#include <stdint.h>

#define DGNEDIT_VERSION_MAJOR 1
#define DGNEDIT_VERSION_MINOR 1
#define DGNEDIT_VERSION_PATCH 0

#ifdef __cplusplus
extern "C" {
#endif

/* How a run can end: the exit numbers of the program. docs/EDITING.md says when each comes. */
enum dgnedit_status {
    DGNEDIT_DONE = 0,
    DGNEDIT_SOME_REFUSED = 1,    /* the file is written, and at least one command was refused */
    DGNEDIT_USAGE = 2,           /* the words are of no form */
    DGNEDIT_BAD_SCRIPT = 3,
    DGNEDIT_BAD_DESIGN = 4,
    DGNEDIT_FILE_MISSING = 5,    /* a file isn't handed in that the run comes to read */
    DGNEDIT_NO_MEMORY = 7,
    DGNEDIT_TOO_LONG = 8,
    DGNEDIT_BAD_PATCH = 10,
    DGNEDIT_PATCH_REFUSED = 11
};

/* Bytes that are handed in. A text is its characters in UTF-8, without a zero at the end. */
typedef struct dgnedit_bytes {
    const uint8_t *at;
    size_t length;
} dgnedit_bytes;

/* A file that is handed in, by the name that the words or the script's imports use. Of two of one name the first counts. */
typedef struct dgnedit_file {
    dgnedit_bytes name;
    dgnedit_bytes bytes;
} dgnedit_file;

/* How a run ended. */
typedef struct dgnedit_ended {
    size_t text_length;     /* how many bytes the run says */
    size_t file_length;     /* how many bytes the file has that it writes; 0 where it writes none */
    uint32_t status;        /* one of enum dgnedit_status */
    bool file_written;      /* whether it writes a file */
} dgnedit_ended;

/* Runs the program once with the words of its command line, as {"edit", "IN", "SCRIPT", "OUT"}, over the files that are
   handed in. What it says stands in the front of `text` and the file that it writes, the one of the last word, in the front
   of `file`, each where all of it has room there; a buffer that is too small stays as it was, the ending says how many bytes
   there are, and a second call with more room gives them.

   Status 5 says that a file isn't handed in that the run comes to read: the text is the name of the first. 7 says that
   there is no memory, and nothing is handed out. */
dgnedit_ended dgnedit_run(const dgnedit_bytes *words, size_t word_count, const dgnedit_file *files, size_t file_count,
                          uint8_t *text, size_t text_room, uint8_t *file, size_t file_room);

#ifdef __cplusplus
}
#endif

#endif
