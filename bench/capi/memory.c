/* What calls allocate: nothing up to 8 POSIX and 16 NFSv4 entries; beyond, they give all of it back, and tell each refused growth, with
   their buffers as they were. And that calls in several threads answer as in one. memory [PERCENT]: of the usual rounds so many percent. */
#include <pthread.h>
#include <stdio.h>
#include <stdlib.h>
#include "../../include/meardwyn.h"
#include "bytes.h"
#include "lists.h"

static __thread long taken, given, fail_at;
void *__real_malloc(size_t size);
void *__real_realloc(void *old, size_t size);
void __real_free(void *old);

void *__wrap_malloc(size_t size)
{
    if (++taken == fail_at) { taken--, fail_at = -1; return NULL; }
    return __real_malloc(size);
}

/* A growth takes nothing new, but may be refused. */
void *__wrap_realloc(void *old, size_t size)
{
    if (!old) return __wrap_malloc(size);
    if (fail_at > 0 && taken + 1 == fail_at) { fail_at = -1; return NULL; }
    if (fail_at > 0) fail_at--;
    return __real_realloc(old, size);
}

void __wrap_free(void *old)
{
    given += old != NULL;
    __real_free(old);
}

static struct bytes b;
static struct meardwyn_ace aces[128], folder[128], out[128];
static size_t n, needed;
static uint8_t bytes[MOST];
static char text[16384];
static uint32_t gids[2] = {3, 5};

static int call(int which)
{
    struct meardwyn_asker who;
    struct meardwyn_difference difference;
    struct meardwyn_file file = {1, 2};
    struct meardwyn_making making = {MEARDWYN_DIRECTORY, 0640, 022, MEARDWYN_CHMOD_LEAST};
    struct meardwyn_xdr_place place = {0, 0, 0, 0};
    struct meardwyn_ace ace = {0, 0, 1, MEARDWYN_BY_NAME, 0};
    uint32_t allowed, mode;
    int32_t error = 0;
    switch (which) {
    case 0: return meardwyn_posix_check(b.at, b.length, 1, 2, 3, gids, 2, 4);
    case 1: return meardwyn_posix_valid(b.at, b.length);
    case 2: return meardwyn_posix_mode(b.at, b.length);
    case 3: return meardwyn_posix_canonical(b.at, b.length, bytes, sizeof bytes, &needed);
    case 4: return meardwyn_posix_chmod(b.at, b.length, 0640, bytes, sizeof bytes, &needed);
    case 5: return meardwyn_posix_create(b.at, b.length, 0640, bytes, sizeof bytes, &needed);
    case 6: return meardwyn_posix_to_nfs4(b.at, b.length, out, 128, &needed);
    case 7: return meardwyn_posix_default_to_nfs4(b.at, b.length, out, 128, &needed);
    case 8: return meardwyn_posix_compare(b.at, b.length, 1, 2, b.at, b.length, 1, 3, 6, &who);
    case 9: return meardwyn_nfs4_check(aces, n, 1, 2, 3, gids, 2, 0x27);
    case 10: return meardwyn_nfs4_allowed(aces, n, 1, 2, 3, gids, 2, 0x27, &allowed);
    case 11: return meardwyn_nfs4_valid(aces, n);
    case 12: return meardwyn_nfs4_mode(aces, n);
    case 13: return meardwyn_nfs4_inherit(aces, n, 1, out, 128, &needed);
    case 14: return meardwyn_nfs4_compare(aces, n, 1, 2, aces, n, 1, 3, 0x27, &difference);
    case 15: return meardwyn_nfs4_chmod(aces, n, 0640, MEARDWYN_CHMOD_PROFILE, out, 128, &needed);
    case 25: return meardwyn_nfs4_chmod(aces, n < 120 ? n : 120, 0640, MEARDWYN_CHMOD_KEEP, out, 128, &needed);
    case 16: return meardwyn_nfs4_to_text(aces, n, text, sizeof text, &needed);
    case 17: return meardwyn_posix_to_text(b.at, b.length, text, sizeof text, &needed);
    case 19: return meardwyn_nfs4_to_xdr(aces, n, bytes, sizeof bytes, &needed) == MEARDWYN_NO_ROOM ? 0 : (int)needed;
    case 20: return meardwyn_nfs4_create(folder, n, &making, out, 128, &needed, &mode);
    case 21: return meardwyn_nfs4_of_mode(0640, 1, out, 128, &needed);
    case 22: return meardwyn_nfs4_may_delete(aces, n, &file, 1, aces, n, &file, 3, gids, 2, &error) ? 1 : error;
    case 23: return meardwyn_posix_may_delete(b.at, b.length, &file, 1, &file, 3, gids, 2, &error) ? 1 : error;
    case 24: return meardwyn_posix_may_delete_linux(b.at, b.length, &file, 1, &file, 3, gids, 2, &error) ? 1 : error;
    case 27: return meardwyn_nfs4_xdr_next((const uint8_t *)"\0\0\0\0", 4, &place, &ace);
    case 28: return meardwyn_nfs4_xdr_begin(n, bytes, sizeof bytes, &needed);
    case 29: return meardwyn_nfs4_xdr_put(&ace, "alice", 5, bytes, sizeof bytes, &needed);
    case 18: return meardwyn_posix_from_text("u::rw-,g::r--,o::---", 20, bytes, sizeof bytes, &needed);
    default: return meardwyn_nfs4_from_text("A::OWNER@:rw", 12, out, 128, &needed);
    }
}
enum { CALLS = 30, FREE_OF_MEMORY = 15 };

/* Whether a call never takes memory; and whether it takes none for so few entries, of which a mode makes some more. */
static int is_free(int which)
{
    return which == 0 || (which >= 9 && which <= 12) || which == 14 || which == 19 || (which >= 21 && which <= 24) || which >= 27;
}
static int is_free_for(int which, int nfs4) { return which < FREE_OF_MEMORY || which == 25 || (which == 20 && nfs4 < 6); }

static void of_length(int posix, int nfs4, int may_take)
{
    random_list(&b, posix == 4 ? 5 : posix);
    shuffle(&b);
    for (n = 0; n < (size_t)nfs4; n++) {
        aces[n] = (struct meardwyn_ace){n % 2, 0, 1u << n % 6, 0, n % 16};
        folder[n] = aces[n], folder[n].flag = n < 40 ? MEARDWYN_NFS4_FILE_INHERIT | MEARDWYN_NFS4_DIRECTORY_INHERIT : 0;
    }
    for (int which = 0; which < CALLS; which++) {
        taken = given = 0, fail_at = 0;
        int answer = call(which);
        long growths = taken;
        if (answer < 0 || taken != given || (taken && is_free(which)) || (taken && !may_take && is_free_for(which, nfs4))) {
            printf("call %d of %d and %d entries: %d, %ld taken, %ld given back\n", which, posix, nfs4, answer, taken, given);
            exit(1);
        }
        for (long nth = 1; nth <= growths + 8; nth++) {
            taken = given = 0, fail_at = nth;
            memset(bytes, 0xaa, sizeof bytes), memset(out, 0xaa, sizeof out), memset(text, 0xaa, sizeof text), needed = 77;
            int other = call(which);
            int refused = fail_at == -1;
            fail_at = 0;
            if (taken != given || other != (refused ? MEARDWYN_NO_MEMORY : answer)) {
                printf("call %d of %d and %d entries, growth %ld refused: %d, %ld taken, %ld given back\n", which, posix, nfs4, nth, other, taken, given);
                exit(1);
            }
            if (refused && (needed != 77 || bytes[0] != 0xaa || text[0] != (char)0xaa || out[0].type != 0xaaaaaaaa)) { printf("call %d changes a buffer\n", which); exit(1); }
            if (!refused) break;
        }
    }
}

static int answers[64], percent = 100;

static void *checks(void *sum)
{
    for (int i = 0; i < 200 * percent; i++) {
        int which = i % 20 ? 0 : 9;
        int answer = which ? meardwyn_nfs4_check(aces, n, 1, 2, i % 32, gids, 2, 0x1) : meardwyn_posix_check(b.at, b.length, 1, 2, i % 32, gids, 2, 4);
        *(int *)sum += answer * (i % 7 + 1);
    }
    return sum;
}

int main(int count, char **words)
{
    if (count > 1) percent = atoi(words[1]);
    for (int i = 0; i < 20; i++) if (i % (100 / percent) == 0) of_length(i % 6 ? 3 + i % 6 : 3, i % 17, 0);
    of_length(9, 17, 1), of_length(33, 40, 1);
    if (percent == 100) of_length(64, 128, 1);
    pthread_t threads[8];
    for (int i = 0; i < 8; i++) pthread_create(threads + i, NULL, checks, answers + i);
    for (int i = 0; i < 8; i++) pthread_join(threads[i], NULL);
    for (int i = 1; i < 8; i++) if (answers[i] != answers[0]) { puts("threads differ"); return 1; }
    puts("no memory up to 8 and 16 entries; beyond, all given back and each refused growth told; 8 threads answer alike");
    return 0;
}
