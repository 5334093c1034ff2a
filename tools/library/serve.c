/* serve WORDS INPUT: serves the words of a command line on the bytes of a file, and writes what it writes to standard
 * output; the status is the call's. Before that it asks for the size with no room. Then it tries a room that is too small
 * by a byte, one that the text fills, and larger ones: a byte, and more. The input and each room are blocks of their own,
 * so that valgrind sees what is read or written beside them. */
#include "check.h"

static uint8_t *bytes_of_file(const char *name, size_t *len)
{
    FILE *file = fopen(name, "rb");
    if (file == NULL || fseek(file, 0, SEEK_END) != 0)
        exit(100);
    long end = ftell(file);
    rewind(file);
    uint8_t *bytes = (uint8_t *)malloc(end > 0 ? (size_t)end : 1);
    if (end < 0 || bytes == NULL || fread(bytes, 1, (size_t)end, file) != (size_t)end)
        exit(100);
    fclose(file);
    *len = (size_t)end;
    return bytes;
}

static const char *words;
static uint8_t *input;
static size_t input_len;

/* Serves into a room of this size; all bytes behind what is written, and all of it where nothing is, stay. */
static uint32_t serve(size_t room, size_t *written, int print)
{
    uint8_t *out = (uint8_t *)malloc(room + 1);
    if (out == NULL)
        exit(100);
    memset(out, 7, room + 1);
    uint32_t status = hpkebatch_serve((const uint8_t *)words, strlen(words), input, input_len, out, room, written);
    int has_text = status == HPKEBATCH_DONE || status == HPKEBATCH_BAD_BATCH || status == HPKEBATCH_BROKEN;
    if (has_text && *written > room)
        exit(101);
    for (size_t i = has_text ? *written : 0; i <= room; i++)
        if (out[i] != 7)
            exit(101);
    if (has_text && print)
        fwrite(out, 1, *written, stdout);
    free(out);
    return status;
}

/* Serves into a room that is large enough for a text of this size. */
static uint32_t serve_within(size_t size, size_t room, int print)
{
    size_t written = size + 1000;
    uint32_t status = serve(room, &written, print);
    CHECK(status == HPKEBATCH_DONE || status == HPKEBATCH_BAD_BATCH || status == HPKEBATCH_BROKEN);
    CHECK(written == size);
    return status;
}

int main(int argc, char **argv)
{
    if (argc != 3)
        return 100;
    words = argv[1];
    input = bytes_of_file(argv[2], &input_len);
    size_t size = 1000, written = 1000;
    uint32_t status = serve(0, &size, 1);
    if (status == HPKEBATCH_NO_ROOM) {
        CHECK(size > 0);
        CHECK(serve(size - 1, &written, 0) == HPKEBATCH_NO_ROOM);
        CHECK(written == size);
        status = serve_within(size, size, 1);
        CHECK(serve_within(size, size + 1, 0) == status);
        CHECK(serve_within(size, size + 9, 0) == status);
    } else {
        CHECK(size == (status == HPKEBATCH_DONE ? 0 : 1000));
    }
    free(input);
    return faults != 0 ? 102 : (int)status;
}
