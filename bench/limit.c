/* What a plain program takes to read a design file whole, to walk over its elements, and to write it again.

       limit IN [OUT]

   It reads IN with one buffer of the file's length, goes from element to element by their word counts up to the
   end mark or the end, says how many there are, and writes the bytes to OUT, if that is given. It checks nothing but
   that each element lies within the file, and keeps nothing of what it sees. */

#include <fcntl.h>
#include <stdio.h>
#include <stdlib.h>
#include <sys/stat.h>
#include <unistd.h>

static void fail(const char *what)
{
    perror(what);
    exit(1);
}

/* The bytes of the file, and how many there are. */
static unsigned char *read_whole(const char *path, size_t *size)
{
    struct stat about;
    int in = open(path, O_RDONLY);
    if (in < 0 || fstat(in, &about) < 0)
        fail(path);
    *size = (size_t)about.st_size;
    unsigned char *bytes = malloc(*size);
    if (bytes == NULL)
        fail("malloc");
    for (size_t have = 0; have < *size;) {
        ssize_t count = read(in, bytes + have, *size - have);
        if (count <= 0)
            fail(path);
        have += (size_t)count;
    }
    close(in);
    return bytes;
}

/* How many elements the bytes have. */
static size_t walk(const unsigned char *bytes, size_t size)
{
    size_t count = 0;
    for (size_t at = 0; at < size; count++) {
        if (size - at >= 2 && bytes[at] == 0xFF && bytes[at + 1] == 0xFF)
            break;
        if (size - at < 4)
            fail("cut");
        size_t words = bytes[at + 2] + 256 * (size_t)bytes[at + 3];
        if (size - at < 4 + 2 * words)
            fail("cut");
        at += 4 + 2 * words;
    }
    return count;
}

static void write_whole(const char *path, const unsigned char *bytes, size_t size)
{
    int out = open(path, O_WRONLY | O_CREAT | O_TRUNC, 0666);
    if (out < 0)
        fail(path);
    for (size_t done = 0; done < size;) {
        ssize_t count = write(out, bytes + done, size - done);
        if (count < 0)
            fail(path);
        done += (size_t)count;
    }
    close(out);
}

int main(int count, char **words)
{
    size_t size;
    if (count != 2 && count != 3)
        return 2;
    unsigned char *bytes = read_whole(words[1], &size);
    printf("elements %zu\n", walk(bytes, size));
    if (count == 3)
        write_whole(words[2], bytes, size);
    return 0;
}
