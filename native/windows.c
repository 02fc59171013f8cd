/* What the program's module asks of a system, on Windows: the words of the command line, files, the last error, and which
   instructions the processor has. Memory is in memory.ll.

   Words and names are UTF-8 inside and UTF-16 outside. All streams and files are binary. A file's whole name is handed to
   the system in the form that has no limit of 260 characters, also on shares. */

#define WIN32_LEAN_AND_MEAN
#define NO_OLDNAMES
#include <windows.h>
#include <shellapi.h>

#include <errno.h>
#include <fcntl.h>
#include <io.h>
#include <share.h>
#include <stdint.h>
#include <stdlib.h>
#include <sys/stat.h>
#include <wchar.h>

#include "processor.h"

enum { NO_WORD = -1, NO_ROOM = -2, NO_TEXT = 0xFF };
enum { WRITES = 01, MAKES = 0100, EMPTIES = 01000 };    /* the flags of `open` on Linux, by which the module asks */
enum { MOST_AT_ONCE = 1 << 30 };

static wchar_t **words;
static int count;

/* Keeps the words, and lets no stream change a line's end. */
static void begin(void)
{
    if (words != NULL) return;
    words = CommandLineToArgvW(GetCommandLineW(), &count);
    for (int stream = 0; stream < 3; stream++) _setmode(stream, _O_BINARY);
}

/* Puts a word into a buffer, and gives its length. A word that is no text is one byte that is none in UTF-8 either. */
int64_t rattle_arg(uint64_t index, uint8_t *to, uint64_t room)
{
    begin();
    if (words == NULL || index >= (uint64_t)count) return NO_WORD;
    const wchar_t *word = words[index];
    if (*word == 0) return 0;
    int length = WideCharToMultiByte(CP_UTF8, WC_ERR_INVALID_CHARS, word, (int)wcslen(word), NULL, 0, NULL, NULL);
    if ((uint64_t)(length > 0 ? length : 1) > room) return NO_ROOM;
    if (length <= 0) {
        to[0] = NO_TEXT;
        return 1;
    }
    return WideCharToMultiByte(CP_UTF8, WC_ERR_INVALID_CHARS, word, (int)wcslen(word), (char *)to, length, NULL, NULL);
}

int64_t rattle_env(const char *name, uint8_t *to, int64_t room) { (void)name, (void)to, (void)room; return NO_WORD; }

int64_t rattle_env_at(int64_t index, uint8_t *to, int64_t room) { (void)index, (void)to, (void)room; return NO_WORD; }

int rattle_errno(void) { return errno; }

void rattle_set_errno(int number) { errno = number; }

/* A name in UTF-16, or null, with an error, where it is no text or there is no memory. */
static wchar_t *wide_of(const char *name)
{
    int length = MultiByteToWideChar(CP_UTF8, MB_ERR_INVALID_CHARS, name, -1, NULL, 0);
    wchar_t *wide = length > 0 ? malloc((size_t)length * sizeof *wide) : NULL;
    errno = length > 0 ? ENOMEM : ENOENT;
    if (wide != NULL) MultiByteToWideChar(CP_UTF8, MB_ERR_INVALID_CHARS, name, -1, wide, length);
    return wide;
}

/* A file's whole name as the system takes it at any length: \\?\C:\folder\name, or \\?\UNC\server\share\name. That of a
   device, such as NUL, stays as it is. */
static wchar_t *whole_of(const wchar_t *name)
{
    static const wchar_t LONG[] = L"\\\\?\\", SHARE[] = L"\\\\?\\UNC\\", DEVICE[] = L"\\\\.\\";
    DWORD length = GetFullPathNameW(name, 0, NULL, NULL);
    wchar_t *whole = length > 0 ? malloc((length + 8) * sizeof *whole) : NULL;
    wchar_t *full = whole != NULL ? whole + 8 : NULL;
    errno = length > 0 ? ENOMEM : ENOENT;
    if (full == NULL || GetFullPathNameW(name, length, full, NULL) == 0) {
        free(whole);
        return NULL;
    }
    if (wcsncmp(full, DEVICE, 4) == 0 || wcsncmp(full, LONG, 4) == 0) {
        wmemmove(whole, full, wcslen(full) + 1);
    } else if (wcsncmp(full, L"\\\\", 2) == 0) {
        wmemcpy(whole, SHARE, 8);
        wmemmove(whole + 8, full + 2, wcslen(full + 2) + 1);
    } else {
        wmemcpy(whole, LONG, 4);
        wmemmove(whole + 4, full, wcslen(full) + 1);
    }
    return whole;
}

/* Opens a file for reading, or makes one to write to, which then nobody else may write to. */
int open(const char *name, int flags, ...)
{
    int kept = _O_BINARY | _O_NOINHERIT | (flags & WRITES ? _O_WRONLY : _O_RDONLY);
    if (flags & MAKES) kept |= _O_CREAT;
    if (flags & EMPTIES) kept |= _O_TRUNC;
    wchar_t *wide = wide_of(name);
    wchar_t *whole = wide != NULL ? whole_of(wide) : NULL;
    int file = whole != NULL ? _wsopen(whole, kept, flags & WRITES ? _SH_DENYWR : _SH_DENYNO, _S_IREAD | _S_IWRITE) : -1;
    int error = errno;
    free(whole);
    free(wide);
    errno = error;
    return file;
}

static unsigned at_once(uint64_t length) { return length > MOST_AT_ONCE ? MOST_AT_ONCE : (unsigned)length; }

int64_t read(int file, void *to, uint64_t room) { return _read(file, to, at_once(room)); }

int64_t write(int file, const void *from, uint64_t length)
{
    begin();
    return _write(file, from, at_once(length));
}

int64_t __write(int file, const void *from, uint64_t length) { return write(file, from, length); }

int close(int file) { return _close(file); }

/* There is no signal for a pipe that nobody reads: a write to it fails. */
int64_t __sysv_signal(int number, int64_t handle) { (void)number, (void)handle; return 0; }

/* Which instructions the processor has. */
const uint32_t *__x86_get_cpuid_feature_leaf(unsigned leaf) { return feature_leaf(leaf); }
