/* Attributes that are cut at each byte and bent at each, with the fault that the first wrong byte makes, worked out here by the order
   that the header gives. What is handed in and what is put stand in blocks of their own size, so that valgrind sees whoever goes beyond.
   hostile LISTS [fenced]: so many random lists; and with `fenced` each block ends where a page begins that may not be touched, so that
   the processor sees it at full speed, and of code that has no instruments. */
#define _DEFAULT_SOURCE
#include <stdio.h>
#include <stdlib.h>
#include <sys/mman.h>
#include "../../include/meardwyn.h"
#include "bytes.h"
#include "lists.h"

static long tried;

static void must(int holds, const char *what, const uint8_t *at, size_t length, int told)
{
    tried++;
    if (holds) return;
    printf("%s: %d, of", what, told);
    for (size_t i = 0; i < length; i++) printf(" %02x", at[i]);
    puts("");
    exit(1);
}

static int fenced;
enum { PAGE = 4096 };

/* A block of its own size, and of fenced ones the pages that it takes with the one behind. */
static size_t pages(size_t size) { return (size + PAGE - 1) / PAGE * PAGE + PAGE; }
static void *block(size_t size)
{
    if (!fenced) {
        void *it = malloc(size ? size : 1);
        if (!it) exit(1);
        return it;
    }
    uint8_t *it = mmap(NULL, pages(size), PROT_READ | PROT_WRITE, MAP_PRIVATE | MAP_ANONYMOUS, -1, 0);
    if (it == MAP_FAILED || mprotect(it + pages(size) - PAGE, PAGE, PROT_NONE)) exit(1);
    return it + pages(size) - PAGE - size;
}
static void release(void *it, size_t size)
{
    if (!fenced) free(it);
    else if (munmap((uint8_t *)it + size + PAGE - pages(size), pages(size))) exit(1);
}

/* A copy in such a block. */
static uint8_t *alone(const uint8_t *at, size_t length) { return memcpy(block(length), at, length); }

/* What is wrong with the bytes, or 0. */
static int fault_of(const uint8_t *at, size_t length)
{
    int count[6] = {0}, repeated = 0;
    if (length < 4) return MEARDWYN_BAD_SIZE;
    if (le32(at) != 2) return MEARDWYN_BAD_VERSION;
    if (length % 8 != 4) return MEARDWYN_BAD_SIZE;
    if (length > 4 + 8 * 64) return MEARDWYN_TOO_MANY;
    for (const uint8_t *e = at + 4; e < at + length; e += 8) {
        int tag = le16(e), kind = 0;
        while (kind < 6 && tag != 1 << kind) kind++;
        int is_named = kind == 1 || kind == 3;
        if (kind == 6) return MEARDWYN_BAD_TAG;
        if (is_named && le32(e + 4) == UINT32_MAX) return MEARDWYN_BAD_ID;
        if (le16(e + 2) > 7) return MEARDWYN_BAD_PERMS;
        for (const uint8_t *o = at + 4; o < e; o += 8) repeated |= le16(o) == le16(e) && (!is_named || le32(o + 4) == le32(e + 4));
        count[kind]++;
    }
    if (!count[0] || !count[2] || !count[5]) return MEARDWYN_MISSING;
    if (repeated) return MEARDWYN_REPEATED;
    return (count[1] || count[3]) && !count[4] ? MEARDWYN_NO_MASK : 0;
}

/* A list goes through each call that puts entries or bytes, whose buffer is as long as it told before. */
static void nfs4(const struct meardwyn_ace *aces, size_t n)
{
    static struct meardwyn_ace no_ace;
    static uint8_t none[1];
    size_t needed = 0, size;
    uint32_t gids[1] = {3}, mode;
    struct meardwyn_file file = {1, 2};
    struct meardwyn_decided said;
    const uint32_t *alone_gids = memcpy(block(sizeof gids), gids, sizeof gids);
    int told = meardwyn_nfs4_decide(aces, n, &file, 3, alone_gids, 1, 0x27, &said);
    must(told == 0 && !(said.allowed & said.denied), "decided", none, 0, told);
    release((void *)alone_gids, sizeof gids);
    told = meardwyn_nfs4_to_xdr(aces, n, none, 0, &needed);
    must(told == MEARDWYN_NO_ROOM && needed <= MEARDWYN_XDR_SIZE(n), "XDR without room", none, 0, told);
    uint8_t *xdr = block(size = needed);
    told = meardwyn_nfs4_to_xdr(aces, n, xdr, needed, &needed);
    must(told == 0 && needed == size, "XDR", xdr, size, told);
    struct meardwyn_ace *read = block(n * sizeof *read);
    told = meardwyn_nfs4_from_xdr(xdr, size, read, n, &needed);
    must(told == 0 && needed == n && !memcmp(read, aces, n * sizeof *read), "XDR again", xdr, size, told);
    release(read, n * sizeof *read), release(xdr, size);
    told = meardwyn_nfs4_chmod(aces, n, 0604, MEARDWYN_CHMOD_LEAST, &no_ace, 0, &needed);
    if (told == MEARDWYN_TOO_MANY) return;
    must(told == MEARDWYN_NO_ROOM, "a mode without room", none, 0, told);
    struct meardwyn_ace *set = block(size = needed * sizeof *set);
    told = meardwyn_nfs4_chmod(aces, n, 0604, MEARDWYN_CHMOD_LEAST, set, needed, &needed);
    must(told == 0 && meardwyn_nfs4_mode(set, needed) == 0604, "a mode", none, 0, told);
    for (size_t i = 0; i < needed; i++) set[i].flag |= MEARDWYN_NFS4_FILE_INHERIT;
    struct meardwyn_making making = {MEARDWYN_FILE, 0640, 022, MEARDWYN_CHMOD_LEAST};
    size_t made_len = 0;
    told = meardwyn_nfs4_create(set, needed, &making, &no_ace, 0, &made_len, &mode);
    if (told == MEARDWYN_NO_ROOM) {
        struct meardwyn_ace *made = block(made_len * sizeof *made);
        told = meardwyn_nfs4_create(set, needed, &making, made, made_len, &made_len, &mode);
        must(told == 0 && mode == 0640 && meardwyn_nfs4_mode(made, made_len) == 0640, "what is made", none, 0, told);
        release(made, made_len * sizeof *made);
    } else must(told == MEARDWYN_TOO_MANY, "what is made without room", none, 0, told);
    release(set, size);
}

/* Each call on the bytes tells the one fault, or answers; what it puts has the length that it told before. */
static void posix(const uint8_t *at, size_t length)
{
    static uint8_t none[1];
    static struct meardwyn_ace no_ace;
    uint8_t *bytes = alone(at, length);
    int wanted = fault_of(at, length), told;
    uint32_t gids[2] = {3, 5};
    size_t needed = 77;
    told = meardwyn_posix_valid(bytes, length);
    must(told == wanted, "valid", at, length, told);
    told = meardwyn_posix_check(bytes, length, 1, 2, 3, gids, 2, 4);
    must(wanted ? told == wanted : told == 0 || told == 1, "check", at, length, told);
    told = meardwyn_posix_check_linux(bytes, length, 1, 2, 3, gids, 2, 4);
    must(wanted ? told == wanted : told == 0 || told == 1, "check as Linux", at, length, told);
    struct meardwyn_file file = {1, 2};
    int32_t error = 77;
    told = meardwyn_posix_may_delete(bytes, length, &file, 1, &file, 3, gids, 2, &error);
    must(error == wanted && !(wanted && told), "deletion", at, length, error);
    told = meardwyn_posix_may_delete_linux(bytes, length, &file, 0, &file, 3, gids, 2, &error);
    must(error == wanted && !(wanted && told), "deletion as Linux", at, length, error);
    told = meardwyn_posix_mode(bytes, length);
    must(wanted ? told == wanted : told >= 0 && told < 512, "mode", at, length, told);
    told = meardwyn_posix_canonical(bytes, length, none, 0, &needed);
    must(told == (wanted ? wanted : MEARDWYN_NO_ROOM), "canonical without room", at, length, told);
    must(needed == (wanted ? 77 : length), "what canonical needs", at, length, needed);
    if (!wanted) {
        size_t size = needed;
        uint8_t *out = block(size);
        told = meardwyn_posix_canonical(bytes, length, out, needed, &needed);
        must(told == 0 && fault_of(out, needed) == 0, "canonical", at, length, told);
        told = meardwyn_posix_canonical(out, needed, bytes, length, &needed);
        must(told == 0 && !memcmp(out, bytes, length), "canonical again", at, length, told);
        release(out, size);
        told = meardwyn_posix_to_nfs4(bytes, length, &no_ace, 0, &needed);
        must(told == MEARDWYN_NO_ROOM && needed <= 125, "translated without room", at, length, told);
        size = needed * sizeof(struct meardwyn_ace);
        struct meardwyn_ace *aces = block(size);
        told = meardwyn_posix_to_nfs4(bytes, length, aces, needed, &needed);
        must(told == 0 && meardwyn_nfs4_valid(aces, needed) == 0, "translated", at, length, told);
        if (!told) nfs4(aces, needed);
        release(aces, size);
    }
    release(bytes, length);
}

/* An entry that was read is written as long as it stands there, and read again with its who. */
static void put_again(const uint8_t *xdr, const struct meardwyn_ace *ace, const struct meardwyn_xdr_place *place)
{
    static uint8_t none[1];
    const char *name = (const char *)xdr + place->who_at;
    struct meardwyn_xdr_place other = {0, 0, 0, 0};
    struct meardwyn_ace read;
    size_t size = 77, needed;
    int told = meardwyn_nfs4_xdr_put(ace, name, place->who_len, none, 0, &size);
    must(told == MEARDWYN_NO_ROOM && size % 4 == 0 && size >= 20, "an entry without room", none, 0, told);
    uint8_t *out = block(4 + size);
    told = meardwyn_nfs4_xdr_begin(1, out, 4, &needed);
    must(told == 0 && needed == 4, "a count", none, 0, told);
    told = meardwyn_nfs4_xdr_put(ace, name, place->who_len, out + 4, size, &needed);
    must(told == 0 && needed == size, "an entry", out, 4 + size, told);
    told = meardwyn_nfs4_xdr_next(out, 4 + size, &other, &read);
    must(told == 1 && !memcmp(&read, ace, sizeof read) && other.at == 4 + size, "an entry again", out, 4 + size, told);
    if (ace->special != MEARDWYN_BY_ID)
        must(other.who_len == place->who_len && !memcmp(out + other.who_at, name, other.who_len), "its name again", out, 4 + size, told);
    told = meardwyn_nfs4_xdr_next(out, 4 + size, &other, &read);
    must(told == 0, "one entry alone", out, 4 + size, told);
    release(out, 4 + size);
}

/* Entry by entry the same is read as at once, up to the same fault; but names are read. */
static void in_turn(const uint8_t *xdr, size_t length, const struct meardwyn_ace *aces, size_t n, int at_once)
{
    struct meardwyn_xdr_place place = {0, 0, 0, 0}, old;
    struct meardwyn_ace ace;
    size_t i = 0, names = 0;
    int told;
    while (old = place, (told = meardwyn_nfs4_xdr_next(xdr, length, &place, &ace)) == 1) {
        must(place.who_at == (old.at ? old.at : 4) + 16 && place.who_at + place.who_len <= place.at && place.at <= length, "a place", xdr, length, told);
        names += ace.special == MEARDWYN_BY_NAME;
        if (!at_once) must(i < n && !memcmp(&ace, aces + i, sizeof ace), "an entry in its turn", xdr, length, told);
        put_again(xdr, &ace, &place);
        i++;
    }
    if (!at_once) must(told == 0 && i == n && place.at == length, "the end", xdr, length, told);
    else must(told == at_once || (names && at_once == MEARDWYN_UNKNOWN_NAME), "a fault in its turn", xdr, length, told);
    if (told) must(!memcmp(&place, &old, sizeof old), "a place with a fault", xdr, length, told);
}

/* XDR that is cut lacks bytes; bent in whatever way it is a list or has a fault, and then nothing is put. */
static void xdr(const uint8_t *at, size_t length, int is_cut)
{
    uint8_t *bytes = alone(at, length);
    struct meardwyn_ace out[128];
    size_t needed = 77;
    memset(out, 0xaa, sizeof out);
    int told = meardwyn_nfs4_from_xdr(bytes, length, out, 128, &needed);
    must(is_cut ? told == MEARDWYN_BAD_SIZE : told <= 0 && told > -30, "from XDR", at, length, told);
    if (told) must(needed == 77 && out[0].type == 0xaaaaaaaa, "put with a fault", at, length, told);
    else {
        int valid = meardwyn_nfs4_valid(out, needed), mode = meardwyn_nfs4_mode(out, needed);
        must(valid == 0, "from XDR no list", at, length, valid);
        must(mode >= 0 && mode < 512, "no mode of XDR", at, length, mode);
    }
    in_turn(bytes, length, out, needed, told);
    release(bytes, length);
}

static const uint8_t values[] = {0, 1, 2, 3, 8, 0x10, 0x20, 0x40, 0x7f, 0x80, 0xff};

static void cut_and_bend(const uint8_t *at, size_t length, void (*ask)(const uint8_t *, size_t))
{
    uint8_t *bent = alone(at, length);
    for (size_t i = 0; i <= length; i++) ask(at, i);
    for (size_t i = 0; i < length; i++) {
        for (size_t k = 0; k < sizeof values; k++) bent[i] = values[k], ask(bent, length);
        bent[i] = at[i];
    }
    release(bent, length);
}

/* OWNER@, a group and EVERYONE@, and then users. */
static const uint8_t three[] = {
    0, 0, 0, 3, 0, 0, 0, 0, 0, 0, 0, 0, 0, 0, 0, 3, 0, 0, 0, 6, 'O', 'W', 'N', 'E', 'R', '@', 0, 0,
    0, 0, 0, 1, 0, 0, 0, 0x40, 0, 0, 0, 1, 0, 0, 0, 2, '5', '0', 0, 0,
    0, 0, 0, 0, 0, 0, 0, 3, 0, 0x12, 0, 0x89, 0, 0, 0, 9, 'E', 'V', 'E', 'R', 'Y', 'O', 'N', 'E', '@', 0, 0, 0,
};

static void xdr_bent(const uint8_t *at, size_t length) { xdr(at, length, length < sizeof three); }

int main(int count, char **words)
{
    int lists = count > 1 ? atoi(words[1]) : 100;
    fenced = count > 2;
    for (int i = 0; i < lists; i++) {
        struct bytes b;
        random_list(&b, i % 7 ? 5 + (int)below(5) : i % 2 ? 64 : 3);
        if (i % 3) shuffle(&b);
        cut_and_bend(b.at, b.length, posix);
    }
    cut_and_bend(three, sizeof three, xdr_bent);
    printf("%ld answers about bytes that are cut and bent\n", tried);
    return 0;
}
