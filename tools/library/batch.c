/* batch BATCH REPLY: the calls on a batch of `run` and its stored reply. */
#include "hpkebatch.h"
#include <stdio.h>
#include <stdlib.h>
#include <string.h>

#define CHECK(holds)                                                                                                   \
    do {                                                                                                               \
        if (!(holds)) {                                                                                                \
            fprintf(stderr, "%s:%d: not so: %s\n", __FILE__, __LINE__, #holds);                                        \
            exit(1);                                                                                                   \
        }                                                                                                              \
    } while (0)

static uint8_t *bytes_of_file(const char *name, size_t *len)
{
    FILE *file = fopen(name, "rb");
    CHECK(file != NULL);
    size_t room = 1 << 20;
    uint8_t *bytes = (uint8_t *)malloc(room);
    CHECK(bytes != NULL);
    *len = fread(bytes, 1, room, file);
    CHECK(*len < room);
    fclose(file);
    return bytes;
}

/* A text of one bad line, for rooms of all sizes: too small for it, filled by it, and larger. */
static void test_bad_line(const char *text, const char *line)
{
    size_t len = strlen(line);
    for (size_t room = 0; room < 80; room++) {
        uint8_t out[80], kept[80];
        size_t out_len = 1000;
        memset(out, 7, sizeof out);
        memcpy(kept, out, sizeof out);
        uint32_t status = hpkebatch_read((const uint8_t *)text, strlen(text), out, room, &out_len);
        if (room < len) {
            CHECK(status == HPKEBATCH_NO_ROOM);
            CHECK(out_len == 1000);
        } else {
            CHECK(status == HPKEBATCH_BAD_BATCH);
            CHECK(out_len == len);
            memcpy(kept, line, len);
        }
        CHECK(memcmp(out, kept, sizeof out) == 0);
    }
    CHECK(hpkebatch_check((const uint8_t *)text, strlen(text), (const uint8_t *)"", 0) == HPKEBATCH_BAD_BATCH);
}

int main(int argc, char **argv)
{
    CHECK(argc == 3);
    size_t batch_len, reply_len, out_len = 1000;
    uint8_t *batch = bytes_of_file(argv[1], &batch_len);
    uint8_t *reply = bytes_of_file(argv[2], &reply_len);
    uint8_t out[8] = {7, 7, 7, 7, 7, 7, 7, 7};

    CHECK(hpkebatch_read(batch, batch_len, out, sizeof out, &out_len) == HPKEBATCH_DONE);
    CHECK(out_len == 1000 && memcmp(out, "\7\7\7\7\7\7\7\7", 8) == 0);
    CHECK(hpkebatch_check(batch, batch_len, reply, reply_len) == HPKEBATCH_DONE);
    CHECK(hpkebatch_check(batch, batch_len, reply, reply_len - 1) == HPKEBATCH_BROKEN);
    CHECK(hpkebatch_check(batch, batch_len, reply, 0) == HPKEBATCH_BROKEN);

    /* One bit of the reply changed, at 40 places. */
    for (size_t i = 0; i < 40; i++) {
        size_t at = i * (reply_len - 1) / 39;
        reply[at] ^= 1;
        CHECK(hpkebatch_check(batch, batch_len, reply, reply_len) == HPKEBATCH_BROKEN);
        reply[at] ^= 1;
    }
    test_bad_line("", "bad 1 header\n");
    test_bad_line("hpkebatch 1\nlane\nseal 00 - -\nend\n", "bad 3 number\n");
    free(batch);
    free(reply);
    return 0;
}
