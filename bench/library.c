/* library PROGRAM ONE MANY: times the parts, a batch in memory, and a spawned command, over a batch of one seal and one of
 * many. bench/library calls it. */
#define _POSIX_C_SOURCE 200809L
#include "check.h"

#include <fcntl.h>
#include <spawn.h>
#include <sys/wait.h>
#include <time.h>
#include <unistd.h>

#define MANY 1000

extern char **environ;

static double now(void)
{
    struct timespec at;
    clock_gettime(CLOCK_MONOTONIC, &at);
    return (double)at.tv_sec * 1e6 + (double)at.tv_nsec / 1e3;
}

static uint8_t batch[1 << 20], reply[1 << 20];
static size_t batch_len, reply_len, wanted_len;

static void read_file(const char *name, uint8_t *bytes, size_t *len)
{
    FILE *file = fopen(name, "rb");
    if (file == NULL)
        exit(100);
    *len = fread(bytes, 1, 1 << 20, file);
    fclose(file);
}

static hpkebatch_context sender;
static uint8_t text[64], cts[MANY * 80];
static hpkebatch_bytes aads[MANY], texts[MANY];
static size_t messages;

static void parts(void)
{
    const uint8_t secret[32] = {7}, *none = (const uint8_t *)"";
    CHECK(hpkebatch_context_shared(&sender, 0, 0, 0xf761, 1, 1, MANY, secret, 32, none, 0, none, 0, none, 0) == 0);
    CHECK(hpkebatch_context_seal_all(&sender, aads, messages, texts, messages, cts, messages * 80) == 0);
}

static void in_memory(void)
{
    CHECK(hpkebatch_serve((const uint8_t *)"rehearse -", 10, batch, batch_len, reply, sizeof reply, &reply_len) == 0);
}

static const char *program, *input, *output = "/dev/shm/hpkebatch-bench";

static void spawned(void)
{
    posix_spawn_file_actions_t files;
    char *words[] = {(char *)"hpkebatch", (char *)"rehearse", (char *)"-", NULL};
    pid_t child;
    int status;
    posix_spawn_file_actions_init(&files);
    posix_spawn_file_actions_addopen(&files, 0, input, O_RDONLY, 0);
    posix_spawn_file_actions_addopen(&files, 1, output, O_WRONLY | O_CREAT | O_TRUNC, 0600);
    CHECK(posix_spawn(&child, program, &files, NULL, words, environ) == 0);
    CHECK(waitpid(child, &status, 0) == child && status == 0);
    posix_spawn_file_actions_destroy(&files);
}

static double least(void (*call)(void), int rounds)
{
    double best = 1e12;
    for (int round = 0; round < rounds; round++) {
        double begin = now();
        call();
        double took = now() - begin;
        best = took < best ? took : best;
    }
    return best;
}

int main(int argc, char **argv)
{
    if (argc != 4)
        return 100;
    program = argv[1];
    double times[3][2];
    for (int i = 0; i < MANY; i++) {
        aads[i] = (hpkebatch_bytes){text, 0};
        texts[i] = (hpkebatch_bytes){text, 64};
    }
    for (int column = 0; column < 2; column++) {
        messages = column == 0 ? 1 : MANY;
        input = argv[2 + column];
        read_file(input, batch, &batch_len);
        int rounds = column == 0 ? 2000 : 200;
        times[0][column] = least(parts, rounds);
        times[1][column] = least(in_memory, rounds);
        times[2][column] = least(spawned, rounds);
        static uint8_t written[1 << 20];
        read_file(output, written, &wanted_len);
        CHECK(wanted_len == reply_len && memcmp(written, reply, reply_len) == 0);
    }
    unlink(output);
    const char *rows[3] = {"set-up and `hpkebatch_context_seal_all`", "`hpkebatch_serve`", "the command, spawned"};
    for (int row = 0; row < 3; row++)
        printf("| %s | %.1f µs | %.1f µs |\n", rows[row], times[row][0], times[row][1]);
    return faults != 0;
}
