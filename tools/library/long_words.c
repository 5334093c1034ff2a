/* long_words WORDS BATCH: the words of a file, which may be more than one argument of a program may have, are served on a
 * batch as `rehearse -` is; and words that are no ASCII text are refused. */
#include "check.h"

static size_t bytes_of_file(const char *name, uint8_t *bytes, size_t room)
{
    FILE *file = fopen(name, "rb");
    if (file == NULL)
        exit(100);
    size_t len = fread(bytes, 1, room, file);
    fclose(file);
    return len;
}

static uint8_t words[1 << 20], batch[1 << 16], out[1 << 16], wanted[1 << 16];

int main(int argc, char **argv)
{
    if (argc != 3)
        return 100;
    size_t words_len = bytes_of_file(argv[1], words, sizeof words);
    size_t batch_len = bytes_of_file(argv[2], batch, sizeof batch);
    size_t size = 0, written = 0;
    CHECK(words_len == 131080);
    CHECK(hpkebatch_serve((const uint8_t *)"rehearse -", 10, batch, batch_len, wanted, sizeof wanted, &size) == HPKEBATCH_DONE);
    CHECK(hpkebatch_serve(words, words_len, batch, batch_len, out, sizeof out, &written) == HPKEBATCH_DONE);
    CHECK(written == size && memcmp(out, wanted, size) == 0);
    CHECK(hpkebatch_serve(words, words_len - 1, batch, batch_len, out, sizeof out, &written) == HPKEBATCH_WRONG_USAGE);
    for (int byte = 0; byte < 256; byte++) {
        uint8_t word[4] = {'r', 'u', 'n', (uint8_t)byte};
        CHECK(hpkebatch_serve(word, 4, batch, batch_len, out, sizeof out, &written) == HPKEBATCH_WRONG_USAGE);
    }
    CHECK(written == size && memcmp(out, wanted, size) == 0);
    return told("long words");
}
