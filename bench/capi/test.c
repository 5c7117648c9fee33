/* The C library beside libacl, beside checks by hand, and beside the kernel. The last line is "ok", or the first difference. */
#define _GNU_SOURCE
#include <errno.h>
#include <fcntl.h>
#include <grp.h>
#include <stdio.h>
#include <stdlib.h>
#include <sys/stat.h>
#include <sys/wait.h>
#include <sys/xattr.h>
#include <unistd.h>
#include "../../include/meardwyn.h"
#include "bytes.h"
#include "lists.h"
#include "libacl.h"

static void show(const struct bytes *b)
{
    for (const uint8_t *p = b->at + 4; p < b->at + b->length; p += 8)
        printf("  tag %#x perms %u id %u\n", le16(p), le16(p + 2), le32(p + 4));
}

#define SAME(what, b, ours, theirs)                                                          \
    do {                                                                                     \
        long one = (ours), other = (theirs);                                                 \
        if (one != other) {                                                                  \
            printf("%s: ours %ld, theirs %ld, of\n", what, one, other), show(b);             \
            exit(1);                                                                         \
        }                                                                                    \
    } while (0)

/* Validity, mode and checks, beside libacl's, of lists that may be bent and out of order. */
static void beside_libacl(int lists)
{
    int valid = 0, checks = 0;
    for (int i = 0; i < lists; i++) {
        struct bytes b;
        int n = below(64) + 2;
        random_list(&b, n < 5 ? 3 : n > 60 ? 60 : n);
        if (i % 3 == 0) random_list(&b, below(2) ? 3 : 5 + below(5));
        if (i % 2) for (int bends = below(3); bends >= 0; bends--) bend(&b);
        if (below(2)) shuffle(&b);
        if ((b.length - 4) / 8 > 64) continue;
        /* acl_set_qualifier wants an id that is one. */
        acl_t acl = libacl_of(&b);
        int theirs = acl_valid(acl) == 0;
        int ours = meardwyn_posix_valid(b.at, b.length);
        SAME("valid", &b, ours == 0, theirs);
        if (theirs) {
            valid++;
            mode_t mode = 0;
            acl_equiv_mode(acl, &mode);
            SAME("mode", &b, meardwyn_posix_mode(b.at, b.length), mode);
            for (int j = 0; j < 20; j++) {
                uint32_t gids[4];
                int count = below(5), want = below(8), top = 3 * n + 2;
                for (int k = 0; k < count; k++) gids[k] = below(top);
                uint32_t owner = below(top), group = below(top), uid = below(top);
                SAME("check", &b, meardwyn_posix_check(b.at, b.length, owner, group, uid, gids, count, want),
                     libacl_grants(acl, owner, group, uid, gids, count, want));
                checks++;
            }
        }
        acl_free(acl);
    }
    printf("%d lists: %d valid for both and with one mode, and %d checks alike\n", lists, valid, checks);
}

/* ---- the kernel */

static char folder[64];

static char *at(const char *name)
{
    static char path[4][128];
    static int turn;
    char *to = path[turn++ % 4];
    snprintf(to, sizeof path[0], "%s/%s", folder, name);
    return to;
}

static size_t read_attribute(const char *path, const char *name, struct bytes *b)
{
    ssize_t got = getxattr(path, name, b->at, sizeof b->at);
    b->length = got < 0 ? 0 : got;
    return b->length;
}

/* 1 if there are so many bytes and these. */
static int same_bytes(const struct bytes *a, const uint8_t *bytes, size_t length)
{
    return a->length == length && !memcmp(a->at, bytes, length);
}

static uint32_t mode_at(const char *path)
{
    struct stat told;
    if (stat(path, &told)) { perror(path); exit(1); }
    return told.st_mode & 0777;
}

/* What the kernel says each of some users may do with the file: a bit for each answer. */
static unsigned kernel_answers(const char *path, uint32_t uid, const gid_t *gids, int count)
{
    int ends[2];
    unsigned answers = 0;
    if (pipe(ends)) exit(1);
    pid_t child = fork();
    if (!child) {
        /* The first group is the process's own. */
        if (setgroups(count, gids) || setresgid(gids[0], gids[0], gids[0]) || setresuid(uid, uid, uid)) _exit(1);
        for (int want = 1; want < 8; want++)
            if (!faccessat(AT_FDCWD, path, want, AT_EACCESS)) answers |= 1u << want;
        if (write(ends[1], &answers, sizeof answers) != sizeof answers) _exit(1);
        _exit(0);
    }
    close(ends[1]);
    if (read(ends[0], &answers, sizeof answers) != sizeof answers) { puts("no answer"); exit(1); }
    close(ends[0]);
    waitpid(child, NULL, 0);
    return answers;
}

/* 1 if the kernel lets the user take the file away. */
static int kernel_deletes(const char *path, uint32_t uid, const gid_t *gids, int count)
{
    pid_t child = fork();
    int status;
    if (!child) {
        if (setgroups(count, gids) || setresgid(gids[0], gids[0], gids[0]) || setresuid(uid, uid, uid)) _exit(2);
        _exit(unlink(path) ? errno == EACCES || errno == EPERM ? 1 : 2 : 0);
    }
    waitpid(child, &status, 0);
    if (!WIFEXITED(status) || WEXITSTATUS(status) > 1) { puts("no answer"); exit(1); }
    return WEXITSTATUS(status) == 0;
}

/* On real files: what the kernel keeps, shows as the mode, makes of chmod and of creation, and decides. */
static void beside_the_kernel(int lists)
{
    if (geteuid()) { puts("not root: nothing is asked of the kernel"); return; }
    const char *base = getenv("TMPDIR") ? getenv("TMPDIR") : "/tmp";
    snprintf(folder, sizeof folder, "%s/meardwyn-XXXXXX", base);
    if (!mkdtemp(folder)) { perror(folder); exit(1); }
    chmod(folder, 0755);
    int asked = 0, kept = 0, refused = 0, strict = 0, deleted = 0;
    umask(0);
    for (int i = 0; i < lists; i++) {
        struct bytes b, told;
        uint8_t out[MOST];
        size_t needed = 0;
        char *file = at("file");
        close(open(file, O_CREAT | O_WRONLY, 0600));
        random_list(&b, below(3) ? 5 + below(6) : 3);
        if (i % 4 == 0) bend(&b);
        int valid = meardwyn_posix_valid(b.at, b.length) == 0;
        int set = setxattr(file, "system.posix_acl_access", b.at, b.length, 0);
        if (set && errno == EOPNOTSUPP) { printf("%s has no lists: nothing is asked of the kernel\n", base); unlink(file), rmdir(folder); return; }
        if (set == 0 && !valid) strict++;       /* the kernel lets a user or a group stand twice, and an empty list away */
        if (valid) {
            /* It refuses entries out of order by kind, and keeps ids in the order in which they came. */
            if (meardwyn_posix_canonical(b.at, b.length, out, sizeof out, &needed)) { puts("canonical"); exit(1); }
            if (setxattr(file, "system.posix_acl_access", out, needed, 0)) { printf("the kernel refuses, in order,\n"), show(&b); exit(1); }
            if (set) refused++;
        }
        if (valid) {
            kept++;
            SAME("mode", &b, meardwyn_posix_mode(b.at, b.length), mode_at(file));
            int minimal = needed == 4 + 8 * 3;
            if (!minimal) {
                read_attribute(file, "system.posix_acl_access", &told);
                SAME("bytes", &b, same_bytes(&told, out, needed), 1);
            }
            /* decisions; draft 17's are the same but for an empty mask */
            uint32_t mask = 7;
            for (const uint8_t *p = b.at + 4; p < b.at + b.length; p += 8) if (le16(p) == MASK) mask = le16(p + 2);
            if (i % 3 == 0) {
                uint32_t owner = 1 + below(8), group = 1 + below(8), uid = 1 + below(16);
                gid_t gids[3] = {1 + below(12), 1 + below(12), 1 + below(12)};
                if (chown(file, owner, group)) exit(1);
                unsigned answers = kernel_answers(file, uid, gids, 3);
                for (int want = 1; want < 8; want++, asked++) {
                    SAME("kernel's check", &b, meardwyn_posix_check_linux(b.at, b.length, owner, group, uid, gids, 3, want), answers >> want & 1);
                    if (mask) SAME("kernel's check by the draft", &b, meardwyn_posix_check(b.at, b.length, owner, group, uid, gids, 3, want), answers >> want & 1);
                }
            }
            /* chmod */
            uint32_t mode = below(512);
            if (chmod(file, mode)) exit(1);
            if (meardwyn_posix_chmod(b.at, b.length, mode, out, sizeof out, &needed)) { puts("chmod"); exit(1); }
            SAME("mode after chmod", &b, mode_at(file), mode);
            if (!minimal) {
                read_attribute(file, "system.posix_acl_access", &told);
                SAME("bytes after chmod", &b, same_bytes(&told, out, needed), 1);
            }
            /* creation under a default list */
            char *below_it = at("folder");
            mkdir(below_it, 0700);
            if (meardwyn_posix_canonical(b.at, b.length, out, sizeof out, &needed)) { puts("canonical"); exit(1); }
            if (setxattr(below_it, "system.posix_acl_default", out, needed, 0)) { perror("default"); exit(1); }
            char made[160];
            snprintf(made, sizeof made, "%s/made", below_it);
            close(open(made, O_CREAT | O_WRONLY, mode));
            if (meardwyn_posix_create(b.at, b.length, mode, out, sizeof out, &needed)) { puts("create"); exit(1); }
            SAME("mode of a new file", &b, meardwyn_posix_mode(out, needed), mode_at(made));
            if (!minimal) {
                read_attribute(made, "system.posix_acl_access", &told);
                SAME("bytes of a new file", &b, same_bytes(&told, out, needed), 1);
            }
            /* deletion from a folder with the list, which is sticky or not */
            if (meardwyn_posix_canonical(b.at, b.length, out, sizeof out, &needed)) { puts("canonical"); exit(1); }
            struct meardwyn_file in = {1 + below(4), 1 + below(8)}, of = {1 + below(4), 1 + below(8)};
            uint32_t uid = 1 + below(below(2) ? 4 : 16);
            gid_t gids[3] = {1 + below(12), 1 + below(12), 1 + below(12)};
            struct meardwyn_user user = {uid, gids, 3};
            int32_t error = 77, sticky = below(2);
            if (removexattr(below_it, "system.posix_acl_default") || setxattr(below_it, "system.posix_acl_access", out, needed, 0)
                || chown(made, of.owner, of.group) || chown(below_it, in.owner, in.group)) { perror("folder"); exit(1); }
            if (sticky && chmod(below_it, 01000 | mode_at(below_it))) { perror("sticky"); exit(1); }
            deleted++;
            int deletes = kernel_deletes(made, uid, gids, 3);
            SAME("the kernel's deletion", &b, meardwyn_posix_may_delete_linux_for(out, needed, &in, sticky, &of, &user, &error), deletes);
            if (mask) SAME("the kernel's deletion by the draft", &b, meardwyn_posix_may_delete_for(out, needed, &in, sticky, &of, &user, &error), deletes);
            SAME("no error", &b, error, 0);
            if (!deletes) unlink(made);
            rmdir(below_it);
        }
        unlink(file);
    }
    rmdir(folder);
    printf("the kernel: %d lists kept alike, with their mode, chmod and creation, %d after they were put in order; %d that it takes and draft 17 does not; %d checks and %d deletions alike\n",
           kept, refused, strict, asked, deleted);
}

/* ---- NFSv4 lists, beside RFC 8881, section 6.2.1, written down by hand */

enum { MOST_ACES = 130 };

static size_t random_aces(struct meardwyn_ace *aces, size_t n)
{
    for (size_t i = 0; i < n; i++) {
        struct meardwyn_ace *ace = aces + i;
        ace->type = below(10) ? below(2) : below(4);
        ace->flag = below(4) ? 0 : below(0x80);
        if ((ace->flag & 0xb) == 8) ace->flag &= ~8u;
        ace->special = below(4), ace->id = ace->special ? 0 : below(8);
        if (ace->special) ace->flag &= ~0x40u;
        ace->access_mask = 0;
        for (int bits = below(6); bits >= 0; bits--) ace->access_mask |= 1u << (below(2) ? below(3) : below(2) ? 5 : below(9));
    }
    return n;
}

static int applies(const struct meardwyn_ace *ace, uint32_t owner, uint32_t group, uint32_t uid, const uint32_t *gids, int count)
{
    switch (ace->special) {
    case 1: return uid == owner;
    case 2: break;
    case 3: return 1;
    default: if (!(ace->flag & 0x40)) return uid == ace->id; group = ace->id;
    }
    for (int i = 0; i < count; i++) if (gids[i] == group) return 1;
    return 0;
}

static uint32_t allowed_by_hand(const struct meardwyn_ace *aces, size_t n, uint32_t owner, uint32_t group, uint32_t uid, const uint32_t *gids,
                                int count, uint32_t request)
{
    uint32_t allowed = 0, open = request;
    for (size_t i = 0; i < n; i++) {
        if (aces[i].type > 1 || aces[i].flag & 8 || !applies(aces + i, owner, group, uid, gids, count)) continue;
        if (aces[i].type == 0) allowed |= open & aces[i].access_mask;
        open &= ~aces[i].access_mask;
    }
    return allowed;
}

/* What is denied is what the list allows with each type turned round. */
static uint32_t denied_by_hand(const struct meardwyn_ace *aces, size_t n, uint32_t owner, uint32_t group, uint32_t uid, const uint32_t *gids,
                               int count, uint32_t request)
{
    static struct meardwyn_ace turned[MOST_ACES];
    for (size_t i = 0; i < n; i++) turned[i] = aces[i], turned[i].type ^= aces[i].type < 2;
    return allowed_by_hand(turned, n, owner, group, uid, gids, count, request);
}

/* RFC 8881, section 6.2.1.3.2, for folders that are searched. */
static int deletes_by_hand(const struct meardwyn_ace *folder, size_t n, const struct meardwyn_file *in, int sticky, const struct meardwyn_ace *aces,
                           size_t m, const struct meardwyn_file *of, uint32_t uid, const uint32_t *gids, int count)
{
    if (allowed_by_hand(aces, m, of->owner, of->group, uid, gids, count, MEARDWYN_NFS4_DELETE)) return 1;
    if (allowed_by_hand(folder, n, in->owner, in->group, uid, gids, count, MEARDWYN_NFS4_DELETE_CHILD)) return 1;
    if (denied_by_hand(aces, m, of->owner, of->group, uid, gids, count, MEARDWYN_NFS4_DELETE)) return 0;
    if (denied_by_hand(folder, n, in->owner, in->group, uid, gids, count, MEARDWYN_NFS4_DELETE_CHILD)) return 0;
    if (!allowed_by_hand(folder, n, in->owner, in->group, uid, gids, count, MEARDWYN_NFS4_ADD_FILE)) return 0;
    return !sticky || uid == in->owner || uid == of->owner;
}

/* The mode that a list shows, RFC 8881, section 6.3.2: of each class what its own entries and those of EVERYONE@ allow. */
static int mode_by_hand(const struct meardwyn_ace *aces, size_t n)
{
    int mode = 0;
    for (uint32_t class = MEARDWYN_OWNER; class <= MEARDWYN_EVERYONE; class++) {
        uint32_t allowed = 0, open = 0x27;
        for (size_t i = 0; i < n; i++) {
            if (aces[i].type > 1 || aces[i].flag & 8 || (aces[i].special != class && aces[i].special != MEARDWYN_EVERYONE)) continue;
            if (aces[i].type == 0) allowed |= open & aces[i].access_mask;
            open &= ~aces[i].access_mask;
        }
        mode = 8 * mode + 4 * (allowed & 1) + 2 * ((allowed & 6) == 6) + (allowed >> 5 & 1);
    }
    return mode;
}

/* The bits of a mask that a digit of a mode stands for. */
static uint32_t bits_of_digit(uint32_t digit)
{
    return (digit & 4 ? 1 : 0) | (digit & 2 ? 6 : 0) | (digit & 1 ? 0x20 : 0);
}

static int names_someone(const struct meardwyn_ace *ace)
{
    return ace->type < 2 && !(ace->flag & 8) && ace->special == MEARDWYN_BY_ID;
}

static void must(int holds, const char *what)
{
    if (!holds) { printf("%s\n", what); exit(1); }
}

static size_t xdr_of(const struct meardwyn_ace *aces, size_t n, uint8_t *to)
{
    uint8_t *at = to;
#define PUT(number) do { uint32_t it = (number); *at++ = it >> 24, *at++ = it >> 16, *at++ = it >> 8, *at++ = it; } while (0)
    PUT(n);
    for (size_t i = 0; i < n; i++) {
        char who[16];
        if (aces[i].special) strcpy(who, aces[i].special == 1 ? "OWNER@" : aces[i].special == 2 ? "GROUP@" : "EVERYONE@");
        else sprintf(who, "%u", aces[i].id);
        size_t len = strlen(who);
        PUT(aces[i].type); PUT(aces[i].flag); PUT(aces[i].access_mask); PUT(len);
        memcpy(at, who, len), at += len;
        while ((at - to) % 4) *at++ = 0;
    }
    return at - to;
}

/* A mode that keeps the named: what their entries say stands, the mode gives the rest, and a later mode leaves nothing of it. */
static void keeping(int lists)
{
    static struct meardwyn_ace aces[MOST_ACES], kept[MOST_ACES], again[MOST_ACES], named[MOST_ACES];
    int asked = 0;
    for (int i = 0; i < lists; i++) {
        size_t n = random_aces(aces, i % 10 ? below(17) : below(60)), m, k, l = 0;
        uint32_t mode = below(512), earlier = below(512);
        must(meardwyn_nfs4_chmod(aces, n, mode, MEARDWYN_CHMOD_KEEP, kept, MOST_ACES, &m) == 0, "keep");
        must(meardwyn_nfs4_mode(kept, m) == (int)mode && mode_by_hand(kept, m) == (int)mode, "the mode beside the named");
        must(meardwyn_nfs4_chmod(aces, n, earlier, MEARDWYN_CHMOD_KEEP, again, MOST_ACES, &k) == 0
             && meardwyn_nfs4_chmod(again, k, mode, MEARDWYN_CHMOD_KEEP, again, MOST_ACES, &k) == 0 && k == m
             && !memcmp(again, kept, m * sizeof *kept), "a mode after another");
        for (size_t j = 0; j < n; j++) if (names_someone(aces + j)) named[l++] = aces[j];
        size_t at = 0;
        for (size_t j = 0; j < m; j++) if (names_someone(kept + j)) must(at < l && !memcmp(kept + j, named + at++, sizeof *kept), "a named entry");
        must(at == l, "a named entry is gone");
        for (int j = 0; j < 20; j++, asked++) {
            uint32_t gids[4] = {below(8), below(8), below(8), below(8)}, owner = below(8), group = below(8), uid = below(8), allowed = 0;
            int count = below(5), in_group = 0;
            for (int g = 0; g < count; g++) in_group |= gids[g] == group;
            uint32_t said = allowed_by_hand(named, l, owner, group, uid, gids, count, 0x27);
            uint32_t open = 0x27 & ~said & ~denied_by_hand(named, l, owner, group, uid, gids, count, 0x27);
            uint32_t wanted = uid == owner ? bits_of_digit(mode >> 6) : said | (open & bits_of_digit(in_group ? mode >> 3 : mode));
            wanted |= allowed_by_hand(aces, n, owner, group, uid, gids, count, 0x1f01ff & ~0x27);
            must(meardwyn_nfs4_allowed(kept, m, owner, group, uid, gids, count, 0x1f01ff, &allowed) == 0 && allowed == wanted, "granted beside the named");
        }
    }
    printf("%d modes beside the named: shown, with all named entries, and %d askers as by hand\n", lists, asked);
}

/* Calls that only decide take any number of entries, and those that take effect nowhere; a mode takes neither. */
static void without_limits(int lists)
{
    enum { LONG = 300 };
    static struct meardwyn_ace aces[LONG], other[LONG];
    struct meardwyn_difference d;
    int told = 0;
    size_t needed = 77;
    for (int i = 0; i < lists; i++) {
        size_t n = 129 + below(LONG - 129);
        for (size_t at = 0; at < n; at += MOST_ACES) random_aces(aces + at, n - at < MOST_ACES ? n - at : MOST_ACES);
        aces[0].type %= 2, aces[0].flag &= MEARDWYN_NFS4_IDENTIFIER_GROUP;
        must(meardwyn_nfs4_valid(aces, n) == 0 && meardwyn_nfs4_mode(aces, n) == mode_by_hand(aces, n), "the mode of a long list");
        must(meardwyn_nfs4_chmod(aces, n, 0640, below(3), other, LONG, &needed) == MEARDWYN_TOO_MANY, "a mode of a long list");
        size_t at = 1 + (below(2) ? below(8) : below(n - 2)), m = below(17);
        aces[at].flag = MEARDWYN_NFS4_INHERIT_ONLY | (aces[at].flag & 0xf0);
        must(meardwyn_nfs4_valid(aces, n) == 0 && meardwyn_nfs4_mode(aces, n) == mode_by_hand(aces, n), "an entry without effect");
        memcpy(other, aces, n * sizeof *aces);
        other[at].flag ^= MEARDWYN_NFS4_INHERIT_ONLY, other[0].type ^= 1;
        if (m > at) must(meardwyn_nfs4_chmod(aces, m, 0640, below(3), other, LONG, &needed) == MEARDWYN_INHERIT_ONLY, "a mode over it");
        else if (i % 4 == 0) {
            int differs = meardwyn_nfs4_compare(aces, n, 1, 2, other, n, 1, 2, 0x1f01ff, &d);
            uint32_t gids[2] = {d.who.gid, d.who.other_gid};
            must(differs == 0 || differs == 1, "compare long lists");
            if (differs) {
                uint32_t before = 0, after = 0;
                must(meardwyn_nfs4_allowed(aces, n, 1, 2, d.who.uid, gids, 2, 0x1f01ff, &before) == 0
                     && meardwyn_nfs4_allowed(other, n, 1, 2, d.who.uid, gids, 2, 0x1f01ff, &after) == 0, "a witness of long lists");
                must((before & ~after) == d.lost && (after & ~before) == d.gained && before != after, "no witness of long lists");
                told++;
            }
        }
        other[n - 1] = aces[n - 1], other[n - 1].type = 4;
        must(meardwyn_nfs4_valid(other, n) == MEARDWYN_BAD_TYPE && meardwyn_nfs4_mode(other, n) == MEARDWYN_BAD_TYPE
             && meardwyn_nfs4_compare(aces, n, 1, 2, other, n, 1, 2, 1, &d) == MEARDWYN_BAD_TYPE, "a type at the end");
    }
    printf("%d NFSv4 lists of more than 128 entries: their modes as by hand, %d with a witness\n", lists, told);
}

static void nfs4(int lists)
{
    static struct meardwyn_ace aces[MOST_ACES], other[MOST_ACES], again[MOST_ACES];
    static uint8_t xdr[8192], written[8192];
    static char text[16384];
    int checks = 0, alike = 0, told = 0, deletions = 0;
    for (int i = 0; i < lists; i++) {
        size_t needed = 0, n = random_aces(aces, i % 10 ? below(17) : below(129)), m;
        must(meardwyn_nfs4_valid(aces, n) == 0 && meardwyn_nfs4_mode(aces, n) == mode_by_hand(aces, n), "a random list is none");
        for (int j = 0; j < 20; j++, checks++) {
            uint32_t gids[4], owner = below(8), group = below(8), uid = below(8), request = below(0x200), allowed = 0;
            struct meardwyn_file file = {owner, group};
            struct meardwyn_decided said;
            int32_t error = 77;
            int count = below(5);
            for (int k = 0; k < count; k++) gids[k] = below(8);
            must(meardwyn_nfs4_allowed(aces, n, owner, group, uid, gids, count, request, &allowed) == 0, "allowed");
            must(allowed == allowed_by_hand(aces, n, owner, group, uid, gids, count, request), "allowed is another");
            must(meardwyn_nfs4_check(aces, n, owner, group, uid, gids, count, request) == (allowed == request), "the check is another");
            must(meardwyn_nfs4_grants(aces, n, &file, uid, gids, count, request, &error) == (allowed == request) && error == 0, "grants");
            must(meardwyn_nfs4_decide(aces, n, &file, uid, gids, count, request, &said) == 0 && said.allowed == allowed, "decided");
            must(said.denied == denied_by_hand(aces, n, owner, group, uid, gids, count, request), "denied");
            /* An entry that is none is told if something is open in front of it, and then nothing is allowed. */
            memcpy(other, aces, n * sizeof *aces);
            if (n) {
                size_t at = below(n);
                other[at].type = 4;
                uint32_t front = allowed_by_hand(aces, at, owner, group, uid, gids, count, request), back;
                for (size_t k = 0; k < at; k++) other[k].type ^= other[k].type < 2;
                back = allowed_by_hand(other, at, owner, group, uid, gids, count, request);
                for (size_t k = 0; k < at; k++) other[k].type ^= other[k].type < 2;
                int32_t told = meardwyn_nfs4_decide(other, n, &file, uid, gids, count, request, &said);
                int settled = (front | back) == request;
                must(told == (settled ? 0 : MEARDWYN_BAD_TYPE), "a fault behind");
                must(said.allowed == (settled ? front : 0) && said.denied == (settled ? back : request), "said with a fault");
                must(meardwyn_nfs4_grants(other, n, &file, uid, gids, count, request, &error) == (settled && front == request)
                     && error == told, "grants with a fault");
            }
        }
        /* Who deletes a file from a folder with these entries. */
        for (int j = 0; j < 10; j++, deletions++) {
            uint32_t gids[4] = {below(8), below(8), below(8), below(8)};
            struct meardwyn_file in = {below(4), below(8)}, of = {below(4), below(8)};
            struct meardwyn_user user = {below(4), gids, below(5)};
            int sticky = below(2);
            int32_t error = 77;
            size_t k = random_aces(other, below(9));
            for (size_t l = 0; l < k; l++) if (below(2)) other[l].access_mask |= MEARDWYN_NFS4_DELETE;
            for (size_t l = 0; l < n; l++) if (!below(8)) aces[l].access_mask ^= MEARDWYN_NFS4_DELETE_CHILD;
            int wanted = deletes_by_hand(aces, n, &in, sticky, other, k, &of, user.uid, gids, user.gids_len);
            must(meardwyn_nfs4_may_delete_for(aces, n, &in, sticky, other, k, &of, &user, &error) == wanted && error == 0, "deletion");
        }
        /* What is made below is what is inherited, with the mode set; the umask counts where nothing is. */
        for (uint32_t kind = 0; kind < 2; kind++) {
            struct meardwyn_making making = {kind, below(512), below(512), below(3)};
            uint32_t its = 0x7777;
            size_t inherits = 0;
            must(meardwyn_nfs4_inherit(aces, n, kind, other, MOST_ACES, &inherits) == 0, "inherit");
            int told = meardwyn_nfs4_create(aces, n, &making, again, MOST_ACES, &m, &its);
            if (!inherits) must(told == 1 && m == 0 && its == (making.mode & ~making.umask), "nothing is inherited");
            else {
                static struct meardwyn_ace dressed[MOST_ACES];
                int wanted = meardwyn_nfs4_chmod(other, inherits, making.mode, making.how, dressed, MOST_ACES, &needed);
                must(told == wanted, "create");
                if (told == 0) must(its == making.mode && m == needed && !memcmp(again, dressed, m * sizeof *again), "what is made");
                else must(its == 0x7777, "a mode without a list");
            }
        }
        /* The mode set is the mode shown; to set it again changes nothing; both ways decide alike for whoever asks. */
        uint32_t mode = below(512);
        int errors[3];
        for (int how = 2; how >= 0; how--) {
            errors[how] = meardwyn_nfs4_chmod(aces, n, mode, how, other, MOST_ACES, &m);
            must(errors[how] == 0 || (errors[how] == MEARDWYN_TOO_MANY && n > 20), "chmod");
            if (errors[how]) continue;
            must(meardwyn_nfs4_mode(other, m) == (int)mode && mode_by_hand(other, m) == (int)mode, "the mode isn't shown");
            must(meardwyn_nfs4_chmod(other, m, mode, how, again, MOST_ACES, &needed) == 0 && needed == m && !memcmp(again, other, m * sizeof *again),
                 "chmod twice");
        }
        if (!errors[0]) {
            struct meardwyn_difference none;
            must(!errors[1] && meardwyn_nfs4_chmod(aces, n, mode, MEARDWYN_CHMOD_LEAST, again, MOST_ACES, &needed) == 0 && needed <= m, "the least");
            must(meardwyn_nfs4_compare(again, needed, 1, 2, other, m, 1, 2, 0x1f01ff, &none) == 0, "the least decides otherwise");
        }
        /* XDR and texts give the same entries. */
        size_t len = xdr_of(aces, n, xdr);
        must(meardwyn_nfs4_from_xdr(xdr, len, again, MOST_ACES, &needed) == 0 && needed == n && !memcmp(again, aces, n * sizeof *aces), "XDR");
        must(meardwyn_nfs4_to_xdr(aces, n, written, sizeof written, &needed) == 0 && needed == len && !memcmp(written, xdr, len), "XDR that is written");
        must(meardwyn_nfs4_from_xdr(xdr, len - 1, again, MOST_ACES, &needed) == MEARDWYN_BAD_SIZE, "XDR that is cut");
        must(meardwyn_nfs4_to_text(aces, n, text, sizeof text, &needed) == 0, "text");
        if (n) must(meardwyn_nfs4_from_text(text, needed, again, MOST_ACES, &needed) == 0 && needed == n && !memcmp(again, aces, n * sizeof *aces),
                    "text again");
        /* A witness is one. */
        struct meardwyn_difference d;
        if (n) {
            memcpy(other, aces, n * sizeof *aces);
            other[below(n)].access_mask ^= 1u << below(3);
            int differs = meardwyn_nfs4_compare(aces, n, 1, 2, other, n, 1, 2, 0x1f01ff, &d);
            must(differs == 0 || differs == 1, "compare");
            if (differs) {
                uint32_t gids[2] = {d.who.gid, d.who.other_gid};
                uint32_t before = allowed_by_hand(aces, n, 1, 2, d.who.uid, gids, 2, 0x1f01ff);
                uint32_t after = allowed_by_hand(other, n, 1, 2, d.who.uid, gids, 2, 0x1f01ff);
                must((before & ~after) == d.lost && (after & ~before) == d.gained && before != after, "the witness is none");
                told++;
            } else alike++;
        }
    }
    printf("%d NFSv4 lists: %d checks and %d deletions alike, modes shown, XDR and texts again; of changed lists %d with a witness, %d alike\n",
           lists, checks, deletions, told, alike);
}

/* A POSIX list and its translation decide each permission alike; a witness of a comparison is one. */
static void between(int lists)
{
    static struct meardwyn_ace aces[MOST_ACES];
    static uint32_t bits[3] = {0x1, 0x6, 0x20}, perms[3] = {4, 2, 1};
    int checks = 0, told = 0;
    for (int i = 0; i < lists; i++) {
        struct bytes b, c;
        size_t n = 0, needed = 0;
        char text[4096];
        uint8_t out[MOST];
        random_list(&b, i % 10 ? 5 + below(6) : 5 + below(60));
        must(meardwyn_posix_to_nfs4(b.at, b.length, aces, MOST_ACES, &n) == 0, "translation");
        for (int j = 0; j < 20; j++) {
            uint32_t gids[3] = {below(12), below(12), below(12)}, owner = below(12), group = below(12), uid = below(12);
            for (int k = 0; k < 3; k++, checks++)
                SAME("translated", &b, meardwyn_posix_check(b.at, b.length, owner, group, uid, gids, 3, perms[k]),
                     meardwyn_nfs4_check(aces, n, owner, group, uid, gids, 3, bits[k]));
        }
        must(meardwyn_posix_to_text(b.at, b.length, text, sizeof text, &needed) == 0, "text");
        must(meardwyn_posix_from_text(text, needed, out, sizeof out, &needed) == 0 && same_bytes(&b, out, needed), "text again");
        /* libacl reads the text as the same list. */
        c = b;
        c.at[4 + 8 * below((b.length - 4) / 8) + 2] ^= 1 << below(3);
        struct meardwyn_asker who;
        uint32_t request = 1 + below(7);
        int differs = meardwyn_posix_compare(b.at, b.length, 1, 2, c.at, c.length, 1, 2, request, &who);
        must(differs >= 0 && differs <= 2, "compare");
        if (differs) {
            uint32_t gids[2] = {who.gid, who.other_gid};
            SAME("before", &b, meardwyn_posix_check(b.at, b.length, 1, 2, who.uid, gids, 2, request), differs == 1);
            SAME("after", &c, meardwyn_posix_check(c.at, c.length, 1, 2, who.uid, gids, 2, request), differs == 2);
            told++;
        }
    }
    printf("%d translations: %d checks alike; texts again; %d witnesses\n", lists, checks, told);
}

/* Edges: buffers that are too small stay as they were, and arguments out of range are told first. */
static void edges(void)
{
    struct bytes b;
    uint8_t out[MOST];
    size_t needed = 7;
    uint32_t gids[1] = {5};
    char name[32];
    random_list(&b, 8);
    memset(out, 0xaa, sizeof out);
    must(meardwyn_posix_canonical(b.at, b.length, out, b.length - 1, &needed) == MEARDWYN_NO_ROOM && needed == b.length, "no room");
    for (size_t i = 0; i < sizeof out; i++) must(out[i] == 0xaa, "the buffer is changed");
    must(meardwyn_posix_canonical(b.at, b.length, out, b.length, &needed) == 0 && out[b.length] == 0xaa, "room for all");
    needed = 7;
    must(meardwyn_posix_chmod(b.at, b.length, 01000, out, sizeof out, &needed) == MEARDWYN_BAD_ARGUMENT && needed == 7, "a mode above 0777");
    must(meardwyn_posix_check(b.at, 3, UINT32_MAX, 1, 1, gids, 1, 4) == MEARDWYN_BAD_ARGUMENT, "no owner");
    must(meardwyn_posix_check(b.at, 3, 1, 1, 1, gids, 1, 4) == MEARDWYN_BAD_SIZE, "three bytes");
    must(meardwyn_posix_check(b.at, b.length - 1, 1, 1, 1, gids, 1, 4) == MEARDWYN_BAD_SIZE, "a byte less");
    must(meardwyn_posix_check(b.at, 4, 1, 1, 1, gids, 1, 4) == MEARDWYN_MISSING, "no entry");
    must(meardwyn_posix_check(b.at, b.length, 1, 1, 1, gids, 0, 8) == MEARDWYN_BAD_ARGUMENT, "a request above 7");
    /* Nothing is said of the bits of retention. */
    struct meardwyn_ace keeps = {MEARDWYN_ALLOW, 0, 0x601, MEARDWYN_EVERYONE, 0};
    struct meardwyn_difference differs;
    must(meardwyn_nfs4_check(&keeps, 1, 1, 1, 1, gids, 0, 1) == 1, "a bit of retention in an entry");
    must(meardwyn_nfs4_check(&keeps, 1, 1, 1, 1, gids, 0, 0x201) == MEARDWYN_BAD_ARGUMENT, "a request of one");
    must(meardwyn_nfs4_compare(&keeps, 1, 1, 1, &keeps, 0, 1, 1, 0x400, &differs) == MEARDWYN_BAD_ARGUMENT, "bits of one");
    b.at[0] = 1;
    must(meardwyn_posix_check(b.at, b.length, 1, 1, 1, gids, 0, 4) == MEARDWYN_BAD_VERSION, "version 1");
    b.at[0] = 2, b.at[4] = 3;
    must(meardwyn_posix_valid(b.at, b.length) == MEARDWYN_BAD_TAG, "tag 3");
    must(meardwyn_posix_of_mode(0640, out, sizeof out, &needed) == 0 && needed == 28 && meardwyn_posix_mode(out, needed) == 0640, "of a mode");
    must(meardwyn_error_name(MEARDWYN_NO_MASK, name, sizeof name, &needed) == 0 && needed == 7 && !memcmp(name, "no-mask", 7), "a name");
    must(meardwyn_version() == 0x10000, "the version");
    must(meardwyn_errno(MEARDWYN_NO_MEMORY) == ENOMEM && meardwyn_errno(MEARDWYN_NO_ROOM) == ERANGE && meardwyn_errno(MEARDWYN_TOO_MANY) == ENOSPC
         && meardwyn_errno(MEARDWYN_NO_MASK) == EINVAL && meardwyn_errno(1) == 0 && meardwyn_errno(0) == 0, "errno");
    must(!strcmp(meardwyn_strerror(MEARDWYN_NO_MASK), "somebody is named and there is no mask") && !strcmp(meardwyn_strerror(-99), "unknown error")
         && !strcmp(meardwyn_strerror(0), "no error"), "strerror");
    puts("edges");
}

/* NULL with length 0 is no bytes, no entries, no groups and no room. */
static void nothing(void)
{
    struct meardwyn_ace ace = {MEARDWYN_ALLOW, 0, MEARDWYN_NFS4_READ_DATA, MEARDWYN_EVERYONE, 0}, out[8];
    struct meardwyn_file file = {1, 2};
    struct meardwyn_user user = {3, NULL, 0};
    struct meardwyn_decided said;
    struct meardwyn_asker who;
    struct meardwyn_difference difference;
    struct meardwyn_making making = {MEARDWYN_FILE, 0640, 022, MEARDWYN_CHMOD_LEAST};
    struct bytes b;
    uint32_t allowed = 77, mode = 0;
    int32_t error = 77;
    size_t needed = 77;
    random_list(&b, 5);
    must(meardwyn_posix_check(NULL, 0, 1, 2, 3, NULL, 0, 4) == MEARDWYN_BAD_SIZE && meardwyn_posix_valid(NULL, 0) == MEARDWYN_BAD_SIZE, "no bytes");
    must(meardwyn_posix_check(b.at, b.length, 1, 2, 3, NULL, 0, 0) == 1 && meardwyn_posix_check_linux(b.at, b.length, 1, 2, 3, NULL, 0, 0) == 1, "no groups");
    must(meardwyn_posix_mode(NULL, 0) == MEARDWYN_BAD_SIZE && meardwyn_posix_to_text(NULL, 0, NULL, 0, &needed) == MEARDWYN_BAD_SIZE, "no list");
    must(meardwyn_posix_canonical(b.at, b.length, NULL, 0, &needed) == MEARDWYN_NO_ROOM && needed == b.length, "no room");
    must(meardwyn_posix_chmod(b.at, b.length, 0640, NULL, 0, &needed) == MEARDWYN_NO_ROOM, "no room for a mode");
    must(meardwyn_posix_create(b.at, b.length, 0640, NULL, 0, &needed) == MEARDWYN_NO_ROOM, "no room for a new file");
    must(meardwyn_posix_of_mode(0640, NULL, 0, &needed) == MEARDWYN_NO_ROOM && needed == 28, "no room for a list");
    must(meardwyn_posix_from_text(NULL, 0, NULL, 0, &needed) == MEARDWYN_INVALID_LIST, "no text");
    must(meardwyn_posix_to_nfs4(b.at, b.length, NULL, 0, &needed) == MEARDWYN_NO_ROOM, "no room for a translation");
    must(meardwyn_posix_default_to_nfs4(b.at, b.length, NULL, 0, &needed) == MEARDWYN_NO_ROOM, "no room for a default list");
    must(meardwyn_posix_compare(NULL, 0, 1, 2, NULL, 0, 1, 2, 4, &who) == MEARDWYN_BAD_SIZE, "no lists");
    must(!meardwyn_posix_may_delete(NULL, 0, &file, 0, &file, 3, NULL, 0, &error) && error == MEARDWYN_BAD_SIZE, "no folder's list");
    must(!meardwyn_posix_may_delete_linux(NULL, 0, &file, 0, &file, 3, NULL, 0, &error) && error == MEARDWYN_BAD_SIZE, "none for Linux");
    must(!meardwyn_posix_grants_for(NULL, 0, &file, &user, 4, &error) && error == MEARDWYN_BAD_SIZE, "none that grants");
    must(meardwyn_posix_grants_linux_for(b.at, b.length, &file, &user, 0, &error) && error == 0, "one that grants nothing");
    must(meardwyn_nfs4_check(NULL, 0, 1, 2, 3, NULL, 0, 1) == 0 && meardwyn_nfs4_check(&ace, 1, 1, 2, 3, NULL, 0, 1) == 1, "no entries");
    must(meardwyn_nfs4_allowed(NULL, 0, 1, 2, 3, NULL, 0, 1, &allowed) == 0 && allowed == 0, "nothing is allowed");
    must(meardwyn_nfs4_decide_for(NULL, 0, &file, &user, 1, &said) == 0 && said.allowed == 0 && said.denied == 0, "nothing is said");
    must(!meardwyn_nfs4_grants_for(NULL, 0, &file, &user, 1, &error) && error == 0, "nothing is granted");
    must(!meardwyn_nfs4_may_delete_for(NULL, 0, &file, 0, NULL, 0, &file, &user, &error) && error == 0, "nothing of deletion");
    must(meardwyn_nfs4_valid(NULL, 0) == 0 && meardwyn_nfs4_mode(NULL, 0) == 0, "a list without entries");
    must(meardwyn_nfs4_chmod(NULL, 0, 0640, MEARDWYN_CHMOD_LEAST, NULL, 0, &needed) == MEARDWYN_NO_ROOM && needed == 4, "no room for a mode");
    must(meardwyn_nfs4_of_mode(0640, 0, NULL, 0, &needed) == MEARDWYN_NO_ROOM && needed == 4, "no room for a list");
    must(meardwyn_nfs4_inherit(NULL, 0, 1, NULL, 0, &needed) == 0 && needed == 0, "nothing to inherit");
    must(meardwyn_nfs4_create(NULL, 0, &making, NULL, 0, &needed, &mode) == 1 && needed == 0 && mode == 0640, "nothing for a new file");
    must(meardwyn_nfs4_from_xdr(NULL, 0, NULL, 0, &needed) == MEARDWYN_BAD_SIZE, "no XDR");
    must(meardwyn_nfs4_to_xdr(NULL, 0, NULL, 0, &needed) == MEARDWYN_NO_ROOM && needed == 4, "no room for XDR");
    must(meardwyn_nfs4_from_text(NULL, 0, NULL, 0, &needed) == 0 && needed == 0, "no text");
    must(meardwyn_nfs4_to_text(NULL, 0, NULL, 0, &needed) == 0 && needed == 0, "no text of it");
    must(meardwyn_nfs4_compare(NULL, 0, 1, 2, NULL, 0, 1, 2, 1, &difference) == 0, "lists without entries");
    must(meardwyn_error_name(-1, NULL, 0, &needed) == MEARDWYN_NO_ROOM && needed == 9, "no room for a name");
    /* The list of a mode is what a mode makes of no entries; what servers check besides stands behind it. */
    must(meardwyn_nfs4_of_mode(0640, 1, out, 8, &needed) == 0 && needed == 6 && meardwyn_nfs4_mode(out, 6) == 0640, "the list of a mode");
    must(out[0].type == MEARDWYN_ALLOW && out[0].special == MEARDWYN_OWNER && out[0].access_mask == 7, "what the owner may");
    must(out[4].special == MEARDWYN_OWNER && out[4].access_mask == 0x1e0198 && out[5].special == MEARDWYN_EVERYONE && out[5].access_mask == 0x120088,
         "what servers check besides");
    must(meardwyn_nfs4_of_mode(01000, 0, out, 8, &needed) == MEARDWYN_BAD_ARGUMENT, "a mode above 0777");
    making.kind = 2;
    must(meardwyn_nfs4_create(NULL, 0, &making, NULL, 0, &needed, &mode) == MEARDWYN_BAD_ARGUMENT, "a kind that is none");
    puts("NULL with length 0");
}

/* A mode, inheritance and creation keep ACE4_INHERITED_ACE and both bits of retention; a text has no letters for them. */
static void kept_bits(void)
{
    struct meardwyn_ace ace = {MEARDWYN_ALLOW, MEARDWYN_NFS4_INHERITED | MEARDWYN_NFS4_FILE_INHERIT, 0x601, MEARDWYN_BY_ID, 1001}, out[8];
    struct meardwyn_making making = {MEARDWYN_FILE, 0640, 022, MEARDWYN_CHMOD_LEAST};
    uint32_t mode = 0;
    size_t needed = 77;
    must(meardwyn_nfs4_inherit(&ace, 1, 0, out, 8, &needed) == 0 && needed == 1 && out[0].flag == MEARDWYN_NFS4_INHERITED
         && out[0].access_mask == 0x601 && out[0].id == 1001, "bits that are inherited");
    must(meardwyn_nfs4_chmod(&ace, 1, 0640, MEARDWYN_CHMOD_LEAST, out, 8, &needed) == 0 && needed == 6, "a mode over such bits");
    must(out[2].flag == 0x89 && out[2].access_mask == 0x601 && out[3].flag == 0x80 && out[3].access_mask == 0x601, "bits beside a mode");
    must(meardwyn_nfs4_create(&ace, 1, &making, out, 8, &needed, &mode) == 0 && needed == 5 && mode == 0640 && out[2].flag == 0x80
         && out[2].access_mask == 0x601, "bits of what is made");
    must(meardwyn_nfs4_to_text(&ace, 1, NULL, 0, &needed) == MEARDWYN_UNKEPT_BITS, "bits without letters");
    puts("kept bits");
}

/* A list with names, byte by byte as RFC 4506 has it: a user, a group, OWNER@ and an id. */
static void names(void)
{
    static const uint8_t xdr[] = {
        0, 0, 0, 4, 0, 0, 0, 0, 0, 0, 0, 3, 0, 0, 0, 1, 0, 0, 0, 17, 'a', 'l', 'i', 'c', 'e', '@', 'e', 'x', 'a', 'm', 'p', 'l', 'e', '.', 'o', 'r', 'g', 0, 0, 0,
        0, 0, 0, 1, 0, 0, 0, 0x40, 0, 0, 0, 2, 0, 0, 0, 4, 's', 't', 'a', 'f',
        0, 0, 0, 0, 0, 0, 0, 0, 0, 0, 0, 3, 0, 0, 0, 6, 'O', 'W', 'N', 'E', 'R', '@', 0, 0,
        0, 0, 0, 0, 0, 0, 0, 0, 0, 0, 0, 1, 0, 0, 0, 2, '5', '0', 0, 0};
    static const struct meardwyn_ace wanted[] = {
        {0, 3, 1, MEARDWYN_BY_NAME, 0}, {1, 0x40, 2, MEARDWYN_BY_NAME, 0}, {0, 0, 3, MEARDWYN_OWNER, 0}, {0, 0, 1, MEARDWYN_BY_ID, 50}};
    static const char *const whos[] = {"alice@example.org", "staf", "OWNER@", "50"};
    struct meardwyn_xdr_place place = {0, 0, 0, 0};
    struct meardwyn_ace ace;
    uint8_t out[sizeof xdr];
    size_t at, more, needed = 77;
    must(meardwyn_nfs4_from_xdr(xdr, sizeof xdr, NULL, 0, &needed) == MEARDWYN_UNKNOWN_NAME && needed == 77, "names at once");
    must(meardwyn_nfs4_xdr_begin(4, out, sizeof out, &at) == 0 && at == 4, "a count");
    for (size_t i = 0; i < 4; i++, at += more) {
        must(meardwyn_nfs4_xdr_next(xdr, sizeof xdr, &place, &ace) == 1 && !memcmp(&ace, wanted + i, sizeof ace), "an entry");
        must(place.who_len == strlen(whos[i]) && !memcmp(xdr + place.who_at, whos[i], place.who_len) && place.left == 3 - i, "its who");
        must(meardwyn_nfs4_xdr_put(&ace, whos[i], strlen(whos[i]), out + at, sizeof out - at, &more) == 0, "an entry that is written");
        must(at + more == place.at, "how long it is");
    }
    must(meardwyn_nfs4_xdr_next(xdr, sizeof xdr, &place, &ace) == 0 && at == sizeof xdr && !memcmp(out, xdr, sizeof xdr), "the end");
    must(meardwyn_nfs4_check(wanted, 1, 1, 2, 3, NULL, 0, 1) == MEARDWYN_BAD_WHO, "a name that is decided by");
    must(meardwyn_nfs4_xdr_put(wanted, "50", 2, out, sizeof out, &more) == MEARDWYN_UNKNOWN_NAME, "an id as a name");
    must(meardwyn_nfs4_xdr_put(wanted, NULL, 0, NULL, 0, &more) == MEARDWYN_UNKNOWN_NAME, "no name");
    must(meardwyn_nfs4_xdr_put(wanted + 2, NULL, 0, NULL, 0, &more) == MEARDWYN_NO_ROOM && more == 24, "no room for an entry");
    must(meardwyn_nfs4_xdr_begin(0, NULL, 0, &more) == MEARDWYN_NO_ROOM && more == 4, "no room for a count");
    place = (struct meardwyn_xdr_place){0, 0, 0, 0};
    must(meardwyn_nfs4_xdr_next(NULL, 0, &place, &ace) == MEARDWYN_BAD_SIZE, "no bytes");
    puts("names");
}

/* test [PERCENT]: of the usual numbers of lists so many percent. */
int main(int count, char **words)
{
    int percent = count > 1 ? atoi(words[1]) : 100;
    edges();
    nothing();
    kept_bits();
    names();
    nfs4(40 * percent);
    keeping(40 * percent);
    without_limits(2 * percent);
    between(40 * percent);
    beside_libacl(200 * percent);
    beside_the_kernel(15 * percent);
    puts("ok");
    return 0;
}
