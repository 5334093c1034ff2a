/* pair: makes a pair of keys, seals a text to a public key, and opens it with the secret key.
 *
 *     pair keygen                    two lines: the public key and the secret key, in hex
 *     pair seal PUBLIC_HEX_FILE      a text on standard input; two lines: enc and ct, in hex
 *     pair open SECRET_HEX_FILE      those two lines on standard input; the text
 *
 * The library is made by `tools/make_library library`, and the program in that folder's place by
 * `cc -Ilibrary/include -o pair pair.c library/lib/libhpkebatch.a`. */
#include <hpkebatch.h>
#include <stdio.h>
#include <stdlib.h>
#include <string.h>

enum { MOST = 1 << 20 }; /* bytes of a text */

static const uint8_t info[] = {'p', 'a', 'i', 'r'};

static void fail(const char *why)
{
    fprintf(stderr, "pair: %s\n", why);
    exit(1);
}

static void do_or_fail(uint32_t status)
{
    if (status != HPKEBATCH_DONE)
        fail(hpkebatch_strerror(status));
}

static void write_hex(const uint8_t *bytes, size_t size)
{
    for (size_t i = 0; i < size; i++)
        printf("%02x", bytes[i]);
    putchar('\n');
}

/* Reads a line of hex into room for `most` bytes; gives how many they are. */
static size_t read_hex(FILE *file, uint8_t *out, size_t most)
{
    static const char digits[] = "0123456789abcdef";
    size_t count = 0;
    int c;
    while ((c = getc(file)) != EOF && c != '\n') {
        const char *digit = strchr(digits, c);
        if (c == 0 || digit == NULL || count == 2 * most)
            fail("a line isn't the hex digits that it should be");
        out[count / 2] = (uint8_t)(out[count / 2] << 4 | (digit - digits));
        count++;
    }
    if (count % 2 != 0)
        fail("a line has an odd number of hex digits");
    return count / 2;
}

/* Reads a key of this size from a file with one line. */
static void read_key(const char *name, uint8_t *key, size_t size)
{
    FILE *file = fopen(name, "r");
    if (file == NULL)
        fail("the key file can't be read");
    if (read_hex(file, key, size) != size)
        fail("the key has another size than a key of sntrup761");
    fclose(file);
}

static void keygen(void)
{
    uint8_t public_key[HPKEBATCH_SNTRUP761_PUBLIC_SIZE], secret_key[HPKEBATCH_SNTRUP761_SECRET_SIZE];
    do_or_fail(hpkebatch_random_sntrup761_keygen(public_key, secret_key));
    write_hex(public_key, sizeof public_key);
    write_hex(secret_key, sizeof secret_key);
}

static void seal(const char *name)
{
    static uint8_t text[MOST + 1], ct[MOST + HPKEBATCH_TAG_SIZE];
    uint8_t public_key[HPKEBATCH_SNTRUP761_PUBLIC_SIZE], enc[HPKEBATCH_SNTRUP761_ENC_SIZE];
    hpkebatch_context sender;
    read_key(name, public_key, sizeof public_key);
    size_t size = fread(text, 1, sizeof text, stdin);
    if (ferror(stdin) || size > MOST)
        fail("the text can't be read, or has more than 1 MiB");
    do_or_fail(hpkebatch_random_sntrup761_sender(&sender, enc, public_key, HPKEBATCH_BASE, HPKEBATCH_HKDF_SHA256,
                                                 HPKEBATCH_AES_128_GCM, 1, info, sizeof info, NULL, 0, NULL, 0));
    do_or_fail(hpkebatch_context_seal(&sender, NULL, 0, text, size, ct, size + HPKEBATCH_TAG_SIZE));
    hpkebatch_wipe(&sender);
    write_hex(enc, sizeof enc);
    write_hex(ct, size + HPKEBATCH_TAG_SIZE);
}

static void open_text(const char *name)
{
    static uint8_t text[MOST], ct[MOST + HPKEBATCH_TAG_SIZE];
    uint8_t secret_key[HPKEBATCH_SNTRUP761_SECRET_SIZE], enc[HPKEBATCH_SNTRUP761_ENC_SIZE];
    hpkebatch_context recipient;
    read_key(name, secret_key, sizeof secret_key);
    if (read_hex(stdin, enc, sizeof enc) != sizeof enc)
        fail("the first line isn't an encapsulation of sntrup761");
    size_t size = read_hex(stdin, ct, sizeof ct);
    if (size < HPKEBATCH_TAG_SIZE)
        fail("the second line is shorter than a tag");
    do_or_fail(hpkebatch_sntrup761_recipient(&recipient, enc, secret_key, HPKEBATCH_BASE, HPKEBATCH_HKDF_SHA256,
                                             HPKEBATCH_AES_128_GCM, 1, info, sizeof info, NULL, 0, NULL, 0));
    do_or_fail(hpkebatch_context_open(&recipient, NULL, 0, ct, size, text, size - HPKEBATCH_TAG_SIZE));
    hpkebatch_wipe(&recipient);
    fwrite(text, 1, size - HPKEBATCH_TAG_SIZE, stdout);
}

int main(int count, char **words)
{
    if (count == 2 && strcmp(words[1], "keygen") == 0)
        keygen();
    else if (count == 3 && strcmp(words[1], "seal") == 0)
        seal(words[2]);
    else if (count == 3 && strcmp(words[1], "open") == 0)
        open_text(words[2]);
    else
        fail("usage: pair keygen | seal PUBLIC_HEX_FILE | open SECRET_HEX_FILE");
    if (fflush(stdout) != 0 || ferror(stdout))
        fail("standard output can't be written");
    return 0;
}
