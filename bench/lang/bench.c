/* How many bytes a second the command language reads and prints: a text of as many whole lines as fit into 1 MiB, of mixed
   commands, read one request after the other, read into a list, and the answers to it printed. */
#include <stdint.h>
#include <stdio.h>
#include <string.h>

#define TURNS 15
#include "../timing.h"

/* The static library bench_lang. */
uint64_t lang_times_read(const char *text, size_t length, uint32_t rounds);
uint64_t lang_times_gathered(const char *text, size_t length, uint32_t rounds);
uint64_t lang_times_rendered(const char *text, size_t length, uint32_t rounds);

enum { MOST = 1048576, ROUNDS = 10 };

static char text[MOST + 256];

/* Ten commands on one of a thousand files. */
static size_t commands(char *out, unsigned nth)
{
    unsigned file = nth % 1000;
    return (size_t)sprintf(out,
        "create file /file%u 1000 640\n"
        "set /file%u access u::rw,u:1001:rw,g::r,m::rw,o::-\n"
        "check /file%u 1001 rw\n"
        "get /file%u\n"
        "# a comment\n"
        "chmod /file%u 600\n"
        "check /file%u 1002 r\n"
        "translate /file%u\n"
        "\n"
        "get /file%u\n",
        file, file, file, file, file, file, file, file);
}

/* Of some turns the least, in nanoseconds a round. */
static double least_round(uint64_t (*work)(const char *, size_t, uint32_t), size_t length, uint64_t *each)
{
    double best = 1e18;
    IN_TURNS LEAST(best, ROUNDS, *each = work(text, length, ROUNDS) / ROUNDS);
    return best;
}

/* The same of work that prepares once: what more rounds take beside few. */
static double least_round_beside(uint64_t (*work)(const char *, size_t, uint32_t), size_t length, uint64_t *each)
{
    double best = 1e18;
    IN_TURNS {
        double start = now();
        work(text, length, 1);
        double one = now() - start;
        start = now();
        *each = work(text, length, 1 + ROUNDS) / (1 + ROUNDS);
        double took = (now() - start - one) / ROUNDS;
        if (took > 0 && took < best) best = took;
    }
    return best;
}

int main(void)
{
    size_t length = 0;
    for (unsigned nth = 0;; nth++) {
        size_t more = commands(text + length, nth);
        if (length + more > MOST - 256) break;
        length += more;
    }
    uint64_t requests = 0, same = 0, bytes = 0;
    double read = least_round(lang_times_read, length, &requests);
    double gathered = least_round(lang_times_gathered, length, &same);
    double rendered = least_round_beside(lang_times_rendered, length, &bytes);
    if (requests == 0 || requests != same || bytes == 0) {
        fprintf(stderr, "bench: the text isn't read\n");
        return 1;
    }
    printf("| WORK | BYTES | REQUESTS | MB A SECOND | NS A REQUEST |\n|---|---|---|---|---|\n");
    printf("| read one by one | %zu | %llu | %.0f | %.0f |\n", length, (unsigned long long)requests, (double)length / read * 1e3, read / (double)requests);
    printf("| read into a list | %zu | %llu | %.0f | %.0f |\n", length, (unsigned long long)requests, (double)length / gathered * 1e3, gathered / (double)requests);
    printf("| print | %llu | %llu | %.0f | %.0f |\n", (unsigned long long)bytes, (unsigned long long)requests, (double)bytes / rendered * 1e3, rendered / (double)requests);
    return 0;
}
