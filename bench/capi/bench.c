/* Checks from the bytes of an extended attribute, beside libacl and a check written by hand, in one run and in turn. */
#include <stdio.h>
#include <string.h>
#include "../../include/meardwyn.h"
#include "../allocations.h"
#include "hand.h"
#include "lists.h"
#include "libacl.h"

static volatile uint64_t sink;

/* n entries: users in order behind the owner, so that half of those who ask are named. */
static void plain_list(struct bytes *b, int n)
{
    uint32_t none = UINT32_MAX;
    begin(b);
    add(b, USER_OBJ, none, 6);
    for (int i = 0; i < n - 4; i++) add(b, USER, 3000 + i, 4);
    add(b, GROUP_OBJ, none, 4);
    if (n > 3) add(b, MASK, none, 4);
    add(b, OTHER, none, 0);
}

static void times(int n)
{
    static struct bytes b;
    plain_list(&b, n);
    uint32_t gids[2] = {50, 60};
    acl_t acl = libacl_of(&b);
    static char ext[4096];
    ssize_t size = acl_copy_ext(ext, acl, sizeof ext);
    if (size < 0) { puts("acl_copy_ext"); exit(1); }
    char *text = acl_to_any_text(acl, NULL, ',', TEXT_NUMERIC_IDS);
    int rounds = 400000 / (n + 10), uids = n + 5;
    double ours = 1e18, hand = 1e18, valid = 1e18, copied = 1e18, texts = 1e18, kept = 1e18;
    IN_TURNS {
        LEAST(ours, rounds, for (int i = 0; i < rounds; i++)
            sink += meardwyn_posix_check(b.at, b.length, 1, 2, 3000 + i % uids, gids, 2, 4));
        LEAST(valid, rounds, for (int i = 0; i < rounds; i++)
            sink += hand_valid(b.at, b.length) == 0 && hand_permission(b.at, b.length, 1, 2, 3000 + i % uids, gids, 2, 4));
        LEAST(hand, rounds, for (int i = 0; i < rounds; i++)
            sink += hand_permission(b.at, b.length, 1, 2, 3000 + i % uids, gids, 2, 4));
        LEAST(copied, rounds, for (int i = 0; i < rounds; i++) {
            acl_t a = acl_copy_int(ext); sink += acl_valid(a) == 0 && libacl_grants(a, 1, 2, 3000 + i % uids, gids, 2, 4); acl_free(a); });
        LEAST(texts, rounds, for (int i = 0; i < rounds; i++) {
            acl_t a = acl_from_text(text); sink += acl_valid(a) == 0 && libacl_grants(a, 1, 2, 3000 + i % uids, gids, 2, 4); acl_free(a); });
        LEAST(kept, rounds, for (int i = 0; i < rounds; i++) sink += libacl_grants(acl, 1, 2, 3000 + i % uids, gids, 2, 4));
    }
    printf("| %d | %.1f | %.1f | %.1f | %.1f | %.1f | %.1f |\n", n, ours, valid, hand, copied, texts, kept);
    acl_free(text), acl_free(acl);
}

/* A list of so many users as an array of entries. */
static void translation(int n)
{
    static struct bytes b;
    static struct meardwyn_ace out[128];
    plain_list(&b, n);
    size_t needed;
    int rounds = 400000 / (n + 10);
    double ours = 1e18;
    IN_TURNS LEAST(ours, rounds, for (int i = 0; i < rounds; i++) sink += meardwyn_posix_to_nfs4(b.at, b.length, out, 128, &needed));
    printf("| %d | %zu | %.1f |\n", n, needed, ours);
}

/* A request of a list of n entries and a user in 17 groups: of users, or half of groups, and EVERYONE@ last. */
static void nfs4_times(int n, int groups)
{
    static struct meardwyn_ace aces[1024];
    struct meardwyn_file file = {1, 2};
    struct meardwyn_decided said;
    uint32_t gids[17];
    for (int i = 0; i < 17; i++) gids[i] = 9000 + i;
    for (int i = 0; i < n; i++) aces[i] = (struct meardwyn_ace){i % 5 == 4, groups && i % 2 ? 0x40 : 0, 0x1200a9, 0, 5000 + i};
    aces[n - 1] = (struct meardwyn_ace){0, 0, 0x1200a9, 3, 0};
    int rounds = 400000 / (n + 10);
    double check = 1e18, decide = 1e18, hand = 1e18, tested = 1e18;
    IN_TURNS {
        LEAST(check, rounds, for (int i = 0; i < rounds; i++) sink += meardwyn_nfs4_check(aces, n, 1, 2, 3, gids, 17, 0x20));
        LEAST(decide, rounds, for (int i = 0; i < rounds; i++) sink += meardwyn_nfs4_decide(aces, n, &file, 3, gids, 17, 0x1f01ff, &said));
        LEAST(hand, rounds, for (int i = 0; i < rounds; i++) sink += hand_nfs4(aces, n, 1, 2, 3, gids, 17, 0x20));
        LEAST(tested, rounds, for (int i = 0; i < rounds; i++) sink += hand_decide(aces, n, 1, 2, 3, gids, 17, 0x1f01ff, &said));
    }
    printf("| %d, %s | %.1f | %.1f | %.1f | %.1f |\n", n, groups ? "half groups" : "users", check, decide, hand, tested);
}

/* Who deletes a file from a folder, of n entries each. */
static void folder_times(int n)
{
    static struct meardwyn_ace aces[1024];
    struct meardwyn_file file = {1, 2};
    uint32_t gids[17];
    int32_t error;
    for (int i = 0; i < 17; i++) gids[i] = 9000 + i;
    for (int i = 0; i < n; i++) aces[i] = (struct meardwyn_ace){i % 5 == 4, 0, 0x1200e9, 0, 5000 + i};
    aces[n - 1] = (struct meardwyn_ace){0, 0, 0x1200ab, 3, 0};
    int rounds = 400000 / (n + 10);
    double deletes = 1e18;
    IN_TURNS LEAST(deletes, rounds, for (int i = 0; i < rounds; i++) sink += meardwyn_nfs4_may_delete(aces, n, &file, 1, aces, n, &file, 3, gids, 17, &error));
    printf("| %d | %.1f |\n", n, deletes);
}

/* ---- pairs: a call, and the same by hand with the same tests, over one list of n entries and a user in 17 groups */

static struct {
    struct meardwyn_ace aces[128], folder[128], out[128];
    uint8_t xdr[MEARDWYN_MOST_XDR], put[MEARDWYN_MOST_XDR];
    size_t n, xdr_len, needed;
    uint32_t gids[17], mode;
    struct meardwyn_file file;
    struct meardwyn_decided said;
} it;

static void one_decide(void) { sink += meardwyn_nfs4_decide(it.aces, it.n, &it.file, 3, it.gids, 17, 0x1f01ff, &it.said) + it.said.allowed; }
static void one_hand_decide(void) { sink += hand_decide(it.aces, it.n, 1, 2, 3, it.gids, 17, 0x1f01ff, &it.said) + it.said.allowed; }
static void one_from_xdr(void) { sink += meardwyn_nfs4_from_xdr(it.xdr, it.xdr_len, it.out, 128, &it.needed) + it.needed; }
static void one_hand_from_xdr(void) { sink += hand_from_xdr(it.xdr, it.xdr_len, it.out, 128, &it.needed) + it.needed; }
static void one_to_xdr(void) { sink += meardwyn_nfs4_to_xdr(it.aces, it.n, it.put, sizeof it.put, &it.needed) + it.needed; }
static void one_hand_to_xdr(void) { sink += hand_to_xdr(it.aces, it.n, it.put, sizeof it.put, &it.needed) + it.needed; }
static const struct meardwyn_making making = {MEARDWYN_FILE, 0640, 022, MEARDWYN_CHMOD_LEAST};
static void one_create(void) { sink += meardwyn_nfs4_create(it.folder, it.n, &making, it.out, 128, &it.needed, &it.mode) + it.needed; }
static void one_hand_create(void) { sink += hand_create(it.folder, it.n, &making, it.out, 128, &it.needed, &it.mode) + it.needed; }

static const struct pair { const char *name; void (*ours)(void), (*hand)(void); } pairs[] = {
    {"decide", one_decide, one_hand_decide},       {"decide-groups", one_decide, one_hand_decide}, {"from_xdr", one_from_xdr, one_hand_from_xdr},
    {"to_xdr", one_to_xdr, one_hand_to_xdr},       {"create", one_create, one_hand_create},
};
enum { PAIRS = sizeof pairs / sizeof *pairs };

/* The list: of users, or half of groups, and EVERYONE@ last; the folder's first five are inherited. */
static void fill(const struct pair *pair, int n)
{
    int groups = !strcmp(pair->name, "decide-groups");
    for (int i = 0; i < 17; i++) it.gids[i] = 9000 + i;
    for (int i = 0; i < n; i++) it.aces[i] = (struct meardwyn_ace){i % 5 == 4, groups && i % 2 ? 0x40 : 0, 0x1200a9, 0, 5000 + i};
    it.aces[n - 1] = (struct meardwyn_ace){0, 0, 0x1200a9, 3, 0};
    for (int i = 0; i < n; i++) it.folder[i] = it.aces[i], it.folder[i].flag |= i < 5 ? MEARDWYN_NFS4_FILE_INHERIT : 0;
    it.n = n, it.file = (struct meardwyn_file){1, 2};
    it.xdr_len = 0;
    if (meardwyn_nfs4_to_xdr(it.aces, n, it.xdr, sizeof it.xdr, &it.xdr_len)) { puts("to_xdr"); exit(1); }
}

/* Stops if the two of a pair don't answer alike. */
static void compare(const struct pair *pair, int n)
{
    static char ours[sizeof it], hand[sizeof it];
    fill(pair, n);
    memset(it.out, 0, sizeof it.out), pair->ours(), memcpy(ours, &it, sizeof it);
    fill(pair, n);
    memset(it.out, 0, sizeof it.out), pair->hand(), memcpy(hand, &it, sizeof it);
    if (memcmp(ours, hand, sizeof it)) { printf("%s of %d entries differs from the same by hand\n", pair->name, n); exit(1); }
}

/* Does one work over and over, for callgrind: `ours` and `hand` (checked and decided) of a check, `nfs4` of a translation; or a call of
   a pair, or `by-hand-` and its name. */
static void work(const char *what, int n, int rounds)
{
    static struct bytes b;
    static struct meardwyn_ace out[128];
    size_t needed, hand_front = strlen("by-hand-");
    uint32_t gids[2] = {50, 60};
    int uids = n + 5, ours = !strcmp(what, "ours"), nfs4 = !strcmp(what, "nfs4"), by_hand = !strncmp(what, "by-hand-", hand_front);
    for (const struct pair *pair = pairs; pair < pairs + PAIRS; pair++) {
        if (strcmp(what + (by_hand ? hand_front : 0), pair->name)) continue;
        fill(pair, n);
        for (int i = 0; i < rounds; i++) by_hand ? pair->hand() : pair->ours();
        return;
    }
    plain_list(&b, n);
    for (int i = 0; i < rounds; i++) {
        if (nfs4) sink += meardwyn_posix_to_nfs4(b.at, b.length, out, 128, &needed);
        else if (ours) sink += meardwyn_posix_check(b.at, b.length, 1, 2, 3000 + i % uids, gids, 2, 4);
        else sink += hand_valid(b.at, b.length) == 0 && hand_permission(b.at, b.length, 1, 2, 3000 + i % uids, gids, 2, 4);
    }
}

/* How many instructions callgrind counts of this program in some rounds of a work. */
static double counted(const char *program, const char *what, int n, int rounds)
{
    char command[512], line[512];
    double count = 0;
    snprintf(command, sizeof command, "valgrind --tool=callgrind --callgrind-out-file=/dev/null '%s' %s %d %d 2>&1", program, what, n, rounds);
    FILE *told = popen(command, "r");
    while (told && fgets(line, sizeof line, told)) {
        char *collected = strstr(line, "Collected : ");
        if (collected) count = strtod(collected + strlen("Collected : "), NULL);
    }
    if (!told || pclose(told) || !count) { puts("callgrind failed"); exit(1); }
    return count;
}

/* Instructions of one call, by the difference of two runs. */
static double instructions(const char *program, const char *what, int n)
{
    int rounds = 100000 / (n + 10);
    return (counted(program, what, n, 2 * rounds) - counted(program, what, n, rounds)) / rounds;
}

/* Nanoseconds of the two of a pair, and with a program's name instructions. */
static void pair_row(const struct pair *pair, int n, const char *program)
{
    char by_hand[64];
    double ours = 1e18, hand = 1e18;
    /* Short turns, and many: on a busy machine too some of them have nothing beside them. */
    int rounds = 20000 / (n + 10);
    compare(pair, n);
    fill(pair, n);
    for (int again = 0; again < 24; again++) IN_TURNS {
        LEAST(ours, rounds, for (int i = 0; i < rounds; i++) pair->ours());
        LEAST(hand, rounds, for (int i = 0; i < rounds; i++) pair->hand());
    }
    printf("| %s, %d | %.1f | %.1f | %.2f |", pair->name, n, ours, hand, ours / hand);
    if (program) {
        snprintf(by_hand, sizeof by_hand, "by-hand-%s", pair->name);
        double one = instructions(program, pair->name, n), other = instructions(program, by_hand, n);
        printf(" %.0f | %.0f | %.2f |", one, other, one / other);
    }
    puts("");
}

int main(int count, char **words)
{
    if (count == 4) {
        work(words[1], atoi(words[2]), atoi(words[3]));
        return 0;
    }
    printf("| entries | ours, from bytes ns | by hand, validated ns | by hand, trusted ns | acl_copy_int, acl_valid, check ns | acl_from_text, acl_valid, check ns | check of an acl_t kept ns |\n"
           "|---|---|---|---|---|---|---|\n");
    times(3), times(5), times(8), times(9), times(16), times(64);
    printf("\n| entries translated | entries put | ours, from bytes ns |\n|---|---|---|\n");
    translation(3), translation(8), translation(64);
    printf("\n| NFSv4 entries, 17 groups | check ns | decide ns | by hand, trusted ns | by hand, tested ns |\n|---|---|---|---|---|\n");
    for (int groups = 0; groups < 2; groups++) nfs4_times(5, groups), nfs4_times(16, groups), nfs4_times(128, groups), nfs4_times(1024, groups);
    printf("\n| NFSv4 entries of a folder and of a file, 17 groups | may_delete ns |\n|---|---|\n");
    folder_times(5), folder_times(16), folder_times(128), folder_times(1024);
    bool has_valgrind = !system("valgrind --version > /dev/null 2>&1");
    printf("\n| call, NFSv4 entries | ours ns | by hand ns | times |%s\n|---|---|---|---|%s\n", has_valgrind ? " ours, instructions | by hand, instructions | times |" : "",
           has_valgrind ? "---|---|---|" : "");
    for (const struct pair *pair = pairs; pair < pairs + PAIRS; pair++)
        for (int i = 0; i < 3; i++) pair_row(pair, (int[]){5, 16, 128}[i], has_valgrind ? words[0] : NULL), fflush(stdout);
    if (!has_valgrind) {
        puts("\nno valgrind: instructions aren't counted");
        return 0;
    }
    printf("\n| entries | ours, instructions | by hand, validated, instructions | translated, instructions |\n|---|---|---|---|\n");
    for (int i = 0; i < 3; i++) {
        int n = (int[]){3, 8, 64}[i];
        printf("| %d | %.0f | %.0f | %.0f |\n", n, instructions(words[0], "ours", n), instructions(words[0], "hand", n), instructions(words[0], "nfs4", n));
    }
    return 0;
}
