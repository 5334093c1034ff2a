/* Runs each line of tools/cases/in_process.cases over the library: the status, the bytes, and that a call that isn't
 * done leaves all that it was lent. The head of that file says what a line means.
 *
 * usage: cases FILE */
#include "check.h"

/* The statuses by their words. */
static const struct {
    const char *word;
    uint32_t status;
} statuses[] = {
    {"done", HPKEBATCH_DONE},           {"wrong_usage", HPKEBATCH_WRONG_USAGE}, {"role", HPKEBATCH_ROLE},
    {"nocipher", HPKEBATCH_NOCIPHER},   {"limit", HPKEBATCH_LIMIT},             {"failed", HPKEBATCH_FAILED},
    {"exportsize", HPKEBATCH_EXPORTSIZE}, {"exhausted", HPKEBATCH_EXHAUSTED},   {"noinverse", HPKEBATCH_NOINVERSE},
    {"form", HPKEBATCH_FORM},           {"pskpair", HPKEBATCH_PSKPAIR},         {"pskextra", HPKEBATCH_PSKEXTRA},
    {"pskmissing", HPKEBATCH_PSKMISSING},
};

/* The file, the number of the line that is run, and what of it isn't read yet. */
static const char *path;
static int line_number;
static char *rest;

/* The context of the last set-up. */
static hpkebatch_context context;

/* A check of the line that is run. */
static void holds(int is_so, const char *what)
{
    check(is_so, what, path, line_number);
}

/* The next field of the line. */
static char *word(void)
{
    char *at = strtok_r(NULL, " ", &rest);
    if (at == NULL) {
        fprintf(stderr, "line %d: a field is missing\n", line_number);
        exit(1);
    }
    return at;
}

static uint64_t number(void)
{
    return strtoull(word(), NULL, 10);
}

static uint16_t small_number(void)
{
    return (uint16_t)number();
}

/* A field of bytes, in memory of its own and of just this size, so that valgrind tells a byte too many. */
typedef struct {
    uint8_t *at;
    size_t size;
} field;

static field of_size(size_t size)
{
    field made = {(uint8_t *)malloc(size ? size : 1), size};
    if (made.at == NULL)
        exit(1);
    memset(made.at, 7, size);
    return made;
}

static int digit(char c)
{
    return c <= '9' ? c - '0' : c - 'a' + 10;
}

static field bytes(void)
{
    const char *hex = word();
    field made = of_size(strcmp(hex, "-") == 0 ? 0 : strlen(hex) / 2);
    for (size_t i = 0; i < made.size; i++)
        made.at[i] = (uint8_t)(digit(hex[2 * i]) << 4 | digit(hex[2 * i + 1]));
    return made;
}

static uint32_t status_wanted(void)
{
    const char *name = word();
    for (size_t i = 0; i < sizeof statuses / sizeof *statuses; i++)
        if (strcmp(statuses[i].word, name) == 0)
            return statuses[i].status;
    fprintf(stderr, "line %d: no status is named %s\n", line_number, name);
    exit(1);
}

/* Compares an answer with the line's, and what was written with the field behind it, or with what stood there. */
static void compare(uint32_t status, uint32_t wanted, field out)
{
    holds(status == wanted, "the status is as the line says");
    field want = bytes(), kept = of_size(out.size);
    if (wanted == HPKEBATCH_DONE)
        holds(want.size == out.size && memcmp(want.at, out.at, out.size) == 0, "the bytes are as the line says");
    else
        holds(memcmp(kept.at, out.at, out.size) == 0, "a call that isn't done writes nothing");
    free(want.at);
    free(kept.at);
    free(out.at);
}

/* Whether a call that isn't done left the context. */
static void compare_context(uint32_t status, const hpkebatch_context *before)
{
    holds(status == HPKEBATCH_DONE || memcmp(before, &context, sizeof context) == 0,
          "a call that isn't done leaves the context");
}

static void run_keygen(void)
{
    int is_857 = number() == 63575;
    field seed = bytes();
    uint64_t stream = number();
    uint32_t wanted = status_wanted(), status;
    field public_key = of_size(is_857 ? HPKEBATCH_SNTRUP857_PUBLIC_SIZE : HPKEBATCH_SNTRUP761_PUBLIC_SIZE);
    field secret_key = of_size(is_857 ? HPKEBATCH_SNTRUP857_SECRET_SIZE : HPKEBATCH_SNTRUP761_SECRET_SIZE);
    status = (is_857 ? hpkebatch_sntrup857_keygen : hpkebatch_sntrup761_keygen)(seed.at, stream, public_key.at,
                                                                                secret_key.at);
    compare(status, wanted, public_key);
    compare(status, wanted, secret_key);
    free(seed.at);
}

/* What the lines of set-ups end with. */
typedef struct {
    uint16_t mode, kdf, aead;
    uint64_t limit;
    field info, psk, psk_id;
} setup;

static void read_suite(setup *of)
{
    of->mode = small_number();
    of->kdf = small_number();
    of->aead = small_number();
    of->limit = number();
}

static void read_inputs(setup *of)
{
    of->info = bytes();
    of->psk = bytes();
    of->psk_id = bytes();
}

static void free_inputs(const setup *of)
{
    free(of->info.at);
    free(of->psk.at);
    free(of->psk_id.at);
}

static void run_sender(void)
{
    hpkebatch_context before = context;
    int is_857 = number() == 63575;
    field seed = bytes();
    uint64_t stream = number();
    field public_key = bytes();
    setup of;
    read_suite(&of);
    read_inputs(&of);
    uint32_t wanted = status_wanted(), status;
    field enc = of_size(is_857 ? HPKEBATCH_SNTRUP857_ENC_SIZE : HPKEBATCH_SNTRUP761_ENC_SIZE);
    status = (is_857 ? hpkebatch_sntrup857_sender : hpkebatch_sntrup761_sender)(
        &context, enc.at, seed.at, stream, public_key.at, of.mode, of.kdf, of.aead, of.limit, of.info.at, of.info.size,
        of.psk.at, of.psk.size, of.psk_id.at, of.psk_id.size);
    compare_context(status, &before);
    compare(status, wanted, enc);
    free(seed.at);
    free(public_key.at);
    free_inputs(&of);
}

static void run_recipient(void)
{
    hpkebatch_context before = context;
    int is_857 = number() == 63575;
    field enc = bytes(), secret_key = bytes();
    setup of;
    read_suite(&of);
    read_inputs(&of);
    uint32_t wanted = status_wanted(), status;
    status = (is_857 ? hpkebatch_sntrup857_recipient : hpkebatch_sntrup761_recipient)(
        &context, enc.at, secret_key.at, of.mode, of.kdf, of.aead, of.limit, of.info.at, of.info.size, of.psk.at,
        of.psk.size, of.psk_id.at, of.psk_id.size);
    compare_context(status, &before);
    holds(status == wanted, "the status is as the line says");
    free(enc.at);
    free(secret_key.at);
    free_inputs(&of);
}

static void run_shared(void)
{
    hpkebatch_context before = context;
    setup of;
    uint16_t role = small_number(), kem = small_number();
    read_suite(&of);
    field secret = bytes();
    read_inputs(&of);
    uint32_t wanted = status_wanted();
    uint32_t status = hpkebatch_context_shared(&context, role, of.mode, kem, of.kdf, of.aead, of.limit, secret.at,
                                               secret.size, of.info.at, of.info.size, of.psk.at, of.psk.size,
                                               of.psk_id.at, of.psk_id.size);
    compare_context(status, &before);
    holds(status == wanted, "the status is as the line says");
    free(secret.at);
    free_inputs(&of);
}

static void run_seal(void)
{
    hpkebatch_context before = context;
    field aad = bytes(), text = bytes();
    uint32_t wanted = status_wanted();
    field out = of_size(text.size + HPKEBATCH_TAG_SIZE);
    uint32_t status = hpkebatch_context_seal(&context, aad.at, aad.size, text.at, text.size, out.at, out.size);
    compare_context(status, &before);
    compare(status, wanted, out);
    free(aad.at);
    free(text.at);
}

static void run_open(void)
{
    hpkebatch_context before = context;
    field aad = bytes(), ct = bytes();
    uint32_t wanted = status_wanted();
    field out = of_size(ct.size < HPKEBATCH_TAG_SIZE ? 0 : ct.size - HPKEBATCH_TAG_SIZE);
    uint32_t status = hpkebatch_context_open(&context, aad.at, aad.size, ct.at, ct.size, out.at, out.size);
    compare_context(status, &before);
    compare(status, wanted, out);
    free(aad.at);
    free(ct.at);
}

static void run_export(void)
{
    field exporter_context = bytes();
    field out = of_size((size_t)number());
    uint32_t wanted = status_wanted();
    uint32_t status = hpkebatch_context_export(&context, exporter_context.at, exporter_context.size, out.at, out.size);
    compare(status, wanted, out);
    free(exporter_context.at);
}

static const struct {
    const char *word;
    void (*run)(void);
} kinds[] = {
    {"keygen", run_keygen}, {"sender", run_sender}, {"recipient", run_recipient}, {"shared", run_shared},
    {"seal", run_seal},     {"open", run_open},     {"export", run_export},
};

static void run_line(char *line)
{
    line[strcspn(line, "\n")] = 0;
    char *kind = strtok_r(line, " ", &rest);
    if (kind == NULL || kind[0] == '#')
        return;
    for (size_t i = 0; i < sizeof kinds / sizeof *kinds; i++)
        if (strcmp(kinds[i].word, kind) == 0) {
            kinds[i].run();
            holds(strtok_r(NULL, " ", &rest) == NULL, "the line has no more fields");
            return;
        }
    holds(0, "the line's first word names a call");
}

int main(int count, char **words)
{
    path = words[1];
    FILE *file = count == 2 ? fopen(path, "r") : NULL;
    if (file == NULL) {
        fprintf(stderr, "usage: cases FILE\n");
        return 2;
    }
    char *line = NULL;
    size_t room = 0;
    while (getline(&line, &room, file) > 0) {
        line_number++;
        run_line(line);
    }
    free(line);
    fclose(file);
    return told("cases");
}
