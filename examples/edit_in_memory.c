/* Edits a drawing by the library: reads IN and SCRIPT, writes OUT, and prints what the program says.

       cc examples/edit_in_memory.c $(pkg-config --cflags --libs dgnedit) -o edit_in_memory
       ./edit_in_memory IN SCRIPT OUT                                                    */

#include "dgnedit.h"

#include <stdio.h>
#include <stdlib.h>
#include <string.h>

/* Reads a whole file; none where that fails. */
static bool read_file(const char *path, dgnedit_bytes *bytes)
{
    FILE *stream = fopen(path, "rb");
    uint8_t *at = NULL;
    long length = -1;
    if (stream != NULL && fseek(stream, 0, SEEK_END) == 0)
        length = ftell(stream);
    if (length >= 0 && fseek(stream, 0, SEEK_SET) == 0)
        at = malloc((size_t)length + 1);
    bool is_read = at != NULL && fread(at, 1, (size_t)length, stream) == (size_t)length;
    if (stream != NULL)
        fclose(stream);
    *bytes = (dgnedit_bytes){at, is_read ? (size_t)length : 0};
    return is_read;
}

static bool write_file(const char *path, const uint8_t *at, size_t length)
{
    FILE *stream = fopen(path, "wb");
    bool is_written = stream != NULL && fwrite(at, 1, length, stream) == length;
    return stream != NULL && fclose(stream) == 0 && is_written;
}

enum { COULD_NOT_WRITE = 6 };    /* the exit number of the program, which the library never has */

static dgnedit_bytes text(const char *chars)
{
    return (dgnedit_bytes){(const uint8_t *)chars, strlen(chars)};
}

int main(int count, char **arguments)
{
    dgnedit_file files[2] = {{text("IN"), {NULL, 0}}, {text("SCRIPT"), {NULL, 0}}};
    const dgnedit_bytes words[4] = {text("edit"), text("IN"), text("SCRIPT"), text("OUT")};
    if (count != 4 || !read_file(arguments[1], &files[0].bytes) || !read_file(arguments[2], &files[1].bytes)) {
        fprintf(stderr, "usage: edit_in_memory IN SCRIPT OUT, where IN and SCRIPT can be read\n");
        return 2;
    }
    /* Room for the answers of a script without listings, and for what it may well append. */
    size_t text_room = 2 * files[1].bytes.length + 4096, file_room = files[0].bytes.length + 65536;
    uint8_t *said = malloc(text_room), *made = malloc(file_room);
    dgnedit_ended ended = {0, 0, DGNEDIT_NO_MEMORY, false};
    if (said != NULL && made != NULL)
        ended = dgnedit_run(words, 4, files, 2, said, text_room, made, file_room);
    if (ended.text_length > text_room || ended.file_length > file_room) {
        text_room = ended.text_length + 1;
        file_room = ended.file_length + 1;
        free(said);
        free(made);
        said = malloc(text_room);
        made = malloc(file_room);
        ended = (dgnedit_ended){0, 0, DGNEDIT_NO_MEMORY, false};
        if (said != NULL && made != NULL)
            ended = dgnedit_run(words, 4, files, 2, said, text_room, made, file_room);
    }
    if (ended.text_length > 0)
        fwrite(said, 1, ended.text_length, stdout);
    if (ended.file_written && !write_file(arguments[3], made, ended.file_length))
        ended.status = COULD_NOT_WRITE;
    free(said);
    free(made);
    free((void *)files[0].bytes.at);
    free((void *)files[1].bytes.at);
    return (int)ended.status;
}
