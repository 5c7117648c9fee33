/* Our NFSv4 access control lists beside plain C that does the same in the obvious way: one array of entries, grown by
   doubling, a loop over the text, a switch over letters, and a string that is grown by doubling. */
#include <stdint.h>
#include <stdio.h>
#include <stdlib.h>
#include <string.h>
#include "../allocations.h"
#include "../timing.h"

/* The static library bench_lists. */
uint64_t aces_times_read(const char *text, size_t length, uint32_t rounds);
uint64_t aces_times_printed(const char *text, size_t length, uint32_t rounds);
uint64_t aces_times_checked(const char *text, size_t length, uint32_t first_uid, uint32_t uids, const uint32_t *gids,
                            size_t gids_length, uint32_t rounds);
uint64_t aces_times_printed_again(const char *text, size_t length, uint32_t rounds);
uint64_t aces_times_names_read(const char *names, size_t names_length, const char *text, size_t length, uint32_t rounds);
uint64_t aces_times_set(const char *text, size_t length, uint16_t mode, uint32_t rounds);
uint64_t aces_times_inherited(const char *text, size_t length, _Bool is_dir, uint32_t rounds);
uint64_t acl_times_translated(const char *text, size_t length, uint32_t rounds);
uint64_t aces_times_compared(const char *first, size_t first_length, const char *second, size_t second_length, uint32_t rounds);
uint64_t acl_times_compared(const char *first, size_t first_length, const char *second, size_t second_length, uint32_t rounds);
uint64_t acl_times_compared_whole(const char *first, size_t first_length, const char *second, size_t second_length, uint32_t rounds);
size_t aces_print(const char *text, size_t length, char *printed, size_t room);
size_t aces_print_set(const char *text, size_t length, uint16_t mode, char *printed, size_t room);
size_t aces_print_inherited(const char *text, size_t length, _Bool is_dir, char *printed, size_t room);
size_t acl_print_translated(const char *text, size_t length, char *printed, size_t room);

enum who { OWNER, GROUP, EVERYONE, USER, NAMED };
struct ace { char kind; uint8_t flags, who; uint32_t id, mask; };
struct list { struct ace *aces; size_t count, room; };
enum { FILES = 1, DIRS = 2, STOPS = 4, ONLY = 8, NAMES_GROUP = 64, MODE_BITS = 0x27 };

static const char flag_letters[] = "fdniSFg", mask_letters[] = "rwaxdDtTnNcCoy";
static const uint32_t mask_bits[] = {1, 2, 4, 0x20, 0x10000, 0x40, 0x80, 0x100, 8, 0x10, 0x20000, 0x40000, 0x80000, 0x100000};

static int flag_of(int c)
{
    switch (c) { case 'f': return 1; case 'd': return 2; case 'n': return 4; case 'i': return 8;
                 case 'S': return 16; case 'F': return 32; case 'g': return 64; }
    return 0;
}

static uint32_t mask_of(int c)
{
    switch (c) { case 'r': return 1; case 'w': return 2; case 'a': return 4; case 'x': return 0x20; case 'd': return 0x10000;
                 case 'D': return 0x40; case 't': return 0x80; case 'T': return 0x100; case 'n': return 8; case 'N': return 0x10;
                 case 'c': return 0x20000; case 'C': return 0x40000; case 'o': return 0x80000; case 'y': return 0x100000; }
    return 0;
}

/* The fields of one piece; 0 where it is none. No names: ids are decimal. */
static int read_ace(const char *at, const char *end, struct ace *ace)
{
    const char *field[5];
    int fields = 0;
    while (at < end && (*at == ' ' || *at == '\t')) at++;
    while (end > at && (end[-1] == ' ' || end[-1] == '\t')) end--;
    field[fields++] = at;
    for (const char *p = at; p < end; p++)
        if (*p == ':') {
            if (fields == 4) return 0;
            field[fields++] = p + 1;
        }
    if (fields != 4) return 0;
    if (field[1] - field[0] != 2 || !strchr("ADUL", *field[0])) return 0;
    ace->kind = *field[0];
    ace->flags = 0;
    for (const char *p = field[1]; p < field[2] - 1; p++) {
        int bit = flag_of(*p);
        if (!bit || ace->flags & bit) return 0;
        ace->flags |= bit;
    }
    ace->mask = 0;
    for (const char *p = field[3]; p < end; p++) {
        uint32_t bit = mask_of(*p);
        if (!bit || ace->mask & bit) return 0;
        ace->mask |= bit;
    }
    const char *who = field[2];
    size_t length = field[3] - 1 - who;
    ace->id = 0;
    if (length == 6 && !memcmp(who, "OWNER@", 6)) ace->who = OWNER;
    else if (length == 6 && !memcmp(who, "GROUP@", 6)) ace->who = GROUP;
    else if (length == 9 && !memcmp(who, "EVERYONE@", 9)) ace->who = EVERYONE;
    else {
        uint64_t id = 0;
        if (!length || length > 10) return 0;
        for (size_t i = 0; i < length; i++) {
            if (who[i] < '0' || who[i] > '9') return 0;
            id = id * 10 + (who[i] - '0');
        }
        if (id > 4294967294u) return 0;
        ace->id = id;
        ace->who = ace->flags & 64 ? NAMED : USER;
    }
    return !((ace->flags & 8) && !(ace->flags & 3));
}

/* Room for one more entry; 0 where there are 128 or memory runs out. */
static int grow(struct list *list)
{
    if (list->count == 128) return 0;
    if (list->count == list->room) {
        list->room = list->room ? 2 * list->room : 8;
        struct ace *more = realloc(list->aces, list->room * sizeof *more);
        if (!more) return 0;
        list->aces = more;
    }
    return 1;
}

static int push(struct list *list, struct ace ace)
{
    if (!grow(list)) return 0;
    list->aces[list->count++] = ace;
    return 1;
}

static int read_list(const char *text, size_t length, struct list *list)
{
    const char *end = text + length;
    list->aces = NULL;
    list->count = list->room = 0;
    while (text < end) {
        const char *p = text;
        while (p < end && *p != ',' && *p != '\n') p++;
        if (!grow(list) || !read_ace(text, p, &list->aces[list->count])) { free(list->aces); return 0; }
        list->count++;
        text = p + 1;
    }
    return 1;
}

struct string { char *bytes; size_t length, room; };

static void put(struct string *s, const char *bytes, size_t length)
{
    if (s->room - s->length < length) {
        s->room = s->room * 2 + length + 64;
        s->bytes = realloc(s->bytes, s->room);
        if (!s->bytes) abort();
    }
    memcpy(s->bytes + s->length, bytes, length);
    s->length += length;
}

static void print_list(const struct list *list, struct string *s)
{
    for (size_t i = 0; i < list->count; i++) {
        const struct ace *ace = &list->aces[i];
        char line[64], *p = line;
        *p++ = ace->kind, *p++ = ':';
        for (int j = 0; j < 7; j++) if (ace->flags & 1 << j) *p++ = flag_letters[j];
        *p++ = ':';
        if (ace->who == OWNER) memcpy(p, "OWNER@", 6), p += 6;
        else if (ace->who == GROUP) memcpy(p, "GROUP@", 6), p += 6;
        else if (ace->who == EVERYONE) memcpy(p, "EVERYONE@", 9), p += 9;
        else {
            char digits[10];
            int n = 0;
            uint32_t id = ace->id;
            do digits[n++] = '0' + id % 10; while (id /= 10);
            while (n) *p++ = digits[--n];
        }
        *p++ = ':';
        for (int j = 0; j < 14; j++) if (ace->mask & mask_bits[j]) *p++ = mask_letters[j];
        *p++ = '\n';
        put(s, line, p - line);
    }
}

static int grants(const struct list *list, uint32_t owner, uint32_t group, uint32_t uid, const uint32_t *gids, int count, uint32_t open)
{
    for (size_t i = 0; i < list->count && open; i++) {
        const struct ace *ace = &list->aces[i];
        if (ace->flags & ONLY) continue;
        int is = ace->who == EVERYONE || (ace->who == OWNER && uid == owner) || (ace->who == USER && uid == ace->id);
        if (ace->kind != 'A' && ace->kind != 'D') continue;
        if (ace->who == GROUP || ace->who == NAMED)
            for (int j = 0; j < count; j++) is |= gids[j] == (ace->who == GROUP ? group : ace->id);
        if (!is) continue;
        if (ace->kind == 'A') open &= ~ace->mask;
        else if (open & ace->mask) return 0;
    }
    return !open;
}

static uint32_t bits_of(int perms) { return (perms & 4 ? 1 : 0) | (perms & 2 ? 6 : 0) | (perms & 1 ? 0x20 : 0); }

static int push_unless_empty(struct list *list, char kind, int who, uint32_t id, uint32_t mask)
{
    return !mask || push(list, (struct ace){kind, who == NAMED ? NAMES_GROUP : 0, who, id, mask});
}

/* Sets the mode on a list, in its place: the list that results is made beside it. 0, and the list as it was, where it would have more
   than 128 entries. */
static int set_mode(struct list *list, int mode)
{
    struct seen { uint32_t id, denied; uint8_t who; } seen[128];
    size_t seen_count = 0;
    uint32_t user = bits_of(mode >> 6 & 7), group = bits_of(mode >> 3 & 7), other = bits_of(mode & 7);
    struct list made = {NULL, 0, 0};
    if (!push_unless_empty(&made, 'A', OWNER, 0, user) || !push_unless_empty(&made, 'D', OWNER, 0, MODE_BITS & ~user)) goto refused;
    for (size_t i = 0; i < list->count; i++) {
        struct ace ace = list->aces[i];
        if (ace.flags & ONLY || (ace.kind != 'A' && ace.kind != 'D')) {
            if (!push(&made, ace)) goto refused;
            continue;
        }
        if (ace.who == USER || ace.who == NAMED) {
            size_t at = 0;
            while (at < seen_count && (seen[at].id != ace.id || seen[at].who != ace.who)) at++;
            if (at == seen_count) seen[seen_count++] = (struct seen){ace.id, 0, ace.who};
            if (ace.kind == 'D') seen[at].denied |= ace.mask;
        }
        if (ace.flags & (FILES | DIRS)) {
            struct ace below = ace;
            below.flags |= ONLY;
            if (!push(&made, below)) goto refused;
            ace.flags &= ~(FILES | DIRS | STOPS);
        }
        if (ace.who == OWNER || ace.who == GROUP || ace.who == EVERYONE) ace.mask &= ~MODE_BITS;
        else if (ace.kind == 'A') ace.mask &= ~MODE_BITS | group;
        if (ace.mask && !push(&made, ace)) goto refused;
    }
    for (size_t i = 0; i < seen_count; i++)
        if (!push_unless_empty(&made, 'D', seen[i].who, seen[i].id, MODE_BITS & ~group & ~seen[i].denied)) goto refused;
    if (!push_unless_empty(&made, 'A', GROUP, 0, group) || !push_unless_empty(&made, 'D', GROUP, 0, MODE_BITS & ~group)
        || !push_unless_empty(&made, 'A', EVERYONE, 0, other)) goto refused;
    free(list->aces);
    *list = made;
    return 1;
refused:
    free(made.aces);
    return 0;
}

static int copy_list(const struct list *list, struct list *copy)
{
    copy->count = copy->room = list->count;
    copy->aces = malloc((list->count + !list->count) * sizeof *list->aces);
    if (!copy->aces) return 0;
    memcpy(copy->aces, list->aces, list->count * sizeof *list->aces);
    return 1;
}

/* A list with a mode set, from a list that stays as it is, as our call is timed. */
static int with_mode(const struct list *list, int mode, struct list *made)
{
    if (!copy_list(list, made)) return 0;
    if (set_mode(made, mode)) return 1;
    free(made->aces);
    return 0;
}

static int inherit(const struct list *list, int is_dir, struct list *made)
{
    *made = (struct list){NULL, 0, 0};
    for (size_t i = 0; i < list->count; i++) {
        struct ace ace = list->aces[i];
        int files = ace.flags & FILES, dirs = ace.flags & DIRS, stops = ace.flags & STOPS, below = 0;
        if (!is_dir) {
            if (!files) continue;
        } else if (stops) {
            if (!dirs) continue;
        } else if (dirs) below = files | dirs;
        else if (files) below = FILES | ONLY;
        else continue;
        ace.flags = (ace.flags & ~(FILES | DIRS | STOPS | ONLY)) | below;
        if (!push(made, ace)) { free(made->aces); return 0; }
    }
    return 1;
}

/* The entries of a valid POSIX list in their order. */
enum tag { USER_OBJ, NAMED_USER, GROUP_OBJ, NAMED_GROUP, MASK, OTHER };
struct entry { uint8_t tag, perms; uint32_t id; };
struct posix { struct entry entries[64]; int count; };

static int translated(const struct posix *acl, struct list *made)
{
    static const uint8_t whos[] = {OWNER, USER, GROUP, NAMED, 0, EVERYONE};
    int mask = 7;
    *made = (struct list){NULL, 0, 0};
    for (int i = 0; i < acl->count; i++) if (acl->entries[i].tag == MASK) mask = acl->entries[i].perms;
    for (int pass = 0; pass < 3; pass++)
        for (int i = 0; i < acl->count; i++) {
            const struct entry *entry = &acl->entries[i];
            int of_group = entry->tag == GROUP_OBJ || entry->tag == NAMED_GROUP;
            if (entry->tag == MASK || (pass == 0) != (entry->tag < GROUP_OBJ) || (pass == 1 && entry->tag == OTHER) || (pass == 2 && entry->tag < GROUP_OBJ)) continue;
            uint32_t has = bits_of(entry->tag == USER_OBJ || entry->tag == OTHER ? entry->perms : entry->perms & mask);
            int allows = pass < 2 || entry->tag == OTHER, denies = pass == 0 || (pass == 2 && of_group);
            if ((allows && !push_unless_empty(made, 'A', whos[entry->tag], entry->id, has))
                || (denies && !push_unless_empty(made, 'D', whos[entry->tag], entry->id, MODE_BITS & ~has))) { free(made->aces); return 0; }
        }
    return 1;
}

static volatile uint64_t sink;

static uint64_t state = 88172645463325252u;
static uint32_t below(uint32_t n)
{
    state ^= state << 13, state ^= state >> 7, state ^= state << 17;
    return (uint32_t)(state >> 33) % n;
}

/* Random entries, of which some name the same users and groups. */
static void random_aces(char *text, int n)
{
    char *end = text;
    for (int i = 0; i < n; i++) {
        int who = below(5), flags = below(3) ? below(8) : 0;
        if (flags & 3 && !below(3)) flags |= ONLY;
        flags |= below(4) ? 0 : below(4) << 4;
        if (who == NAMED) flags |= NAMES_GROUP;
        *end++ = below(8) ? "AD"[below(2)] : "UL"[below(2)], *end++ = ':';
        for (int j = 0; j < 7; j++) if (flags & 1 << j) *end++ = flag_letters[j];
        end += who < 3 ? sprintf(end, ":%s:", who == OWNER ? "OWNER@" : who == GROUP ? "GROUP@" : "EVERYONE@") : sprintf(end, ":%u:", 3000 + below(20));
        for (int j = 0; j < 14; j++) if (!below(3)) *end++ = mask_letters[j];
        *end++ = '\n';
    }
    *end = 0;
}

/* A POSIX list of users and groups in order, and its text. */
static void make_posix(struct posix *acl, char *text, int users, int groups, uint32_t first, int perms, int mask)
{
    static const char *const words[] = {"user", "user", "group", "group", "mask", "other"};
    acl->count = 0;
    acl->entries[acl->count++] = (struct entry){USER_OBJ, below(8), 0};
    for (int i = 0; i < users; i++) acl->entries[acl->count++] = (struct entry){NAMED_USER, perms < 0 ? below(8) : (unsigned)perms, first + i};
    acl->entries[acl->count++] = (struct entry){GROUP_OBJ, perms < 0 ? below(8) : (unsigned)perms, 0};
    for (int i = 0; i < groups; i++) acl->entries[acl->count++] = (struct entry){NAMED_GROUP, perms < 0 ? below(8) : (unsigned)perms, first + i};
    if (users + groups) acl->entries[acl->count++] = (struct entry){MASK, mask < 0 ? below(8) : (unsigned)mask, 0};
    acl->entries[acl->count++] = (struct entry){OTHER, below(8), 0};
    for (int i = 0; i < acl->count; i++) {
        struct entry entry = acl->entries[i];
        text += sprintf(text, "%s:", words[entry.tag]);
        if (entry.tag == NAMED_USER || entry.tag == NAMED_GROUP) text += sprintf(text, "%u", entry.id);
        text += sprintf(text, ":%c%c%c\n", entry.perms & 4 ? 'r' : '-', entry.perms & 2 ? 'w' : '-', entry.perms & 1 ? 'x' : '-');
    }
}

static void same(const char *what, const char *text, const struct list *theirs, int made, const char *ours, size_t length)
{
    struct string s = {0};
    if (made) print_list(theirs, &s);
    if (s.length != length || memcmp(s.bytes, ours, length)) {
        printf("%s of\n%s\nplain C:\n%.*s\nours:\n%.*s\n", what, text, (int)s.length, s.bytes, (int)length, ours);
        exit(1);
    }
    free(s.bytes);
    if (made) free(theirs->aces);
}

/* Both set modes, hand down and translate alike. */
static void compare(int lists)
{
    static char text[16384], printed[32768];
    int refused = 0;
    for (int i = 0; i < lists; i++) {
        struct list list, made;
        struct posix posix;
        random_aces(text, 1 + below(i % 4 ? 40 : 128));
        if (!read_list(text, strlen(text), &list)) { printf("plain C refuses %s\n", text); exit(1); }
        int mode = below(512), good = with_mode(&list, mode, &made);
        refused += !good;
        same("mode", text, &made, good, printed, aces_print_set(text, strlen(text), mode, printed, sizeof printed));
        for (int is_dir = 0; is_dir < 2; is_dir++) {
            good = inherit(&list, is_dir, &made);
            same("inherited", text, &made, good, printed, aces_print_inherited(text, strlen(text), is_dir, printed, sizeof printed));
        }
        uint32_t gids[2] = {3000 + below(20), 3000 + below(20)};
        uint64_t granted = 0;
        for (int uid = 0; uid < 22; uid++) granted += grants(&list, 1, 2, 3000 + uid, gids, 2, 1);
        if (granted != aces_times_checked(text, strlen(text), 3000, 22, gids, 2, 1)) { printf("decided otherwise:\n%s\n", text); exit(1); }
        free(list.aces);
        int users = below(30);
        make_posix(&posix, text, users, below(30), below(100), -1, -1);
        good = translated(&posix, &made);
        same("translation", text, &made, good, printed, acl_print_translated(text, strlen(text), printed, sizeof printed));
    }
    printf("%d random lists: 22 requesters of each decided, modes set (%d times refused as too long), inherited by files and directories\nand translated alike\n\n", lists, refused);
}

/* What lists of up to 16 entries allocate, which is nothing. */
static void count_allocations(int lists)
{
    static char text[16384];
    uint32_t gids[2] = {3003, 60};
    for (int i = 0; i < lists; i++) {
        int n = 1 + i % 16;
        random_aces(text, n);
        size_t length = strlen(text);
        NO_ALLOCATION("read with validity", n, aces_times_read(text, length, rounds));
        NO_ALLOCATION("print", n, aces_times_printed_again(text, length, rounds));
        NO_ALLOCATION("check", n, 1 + aces_times_checked(text, length, 3000, 9, gids, 2, rounds));
        NO_ALLOCATION("inherited", n, 1 + aces_times_inherited(text, length, i % 2, rounds));
        /* What comes of three entries has at most 14. */
        if (n <= 3) NO_ALLOCATION("mode", n, aces_times_set(text, length, below(512), rounds));
        struct posix posix;
        int users = below(3), groups = below(3);
        make_posix(&posix, text, users, groups, 3000, -1, -1);
        NO_ALLOCATION("translation", posix.count, 1 + acl_times_translated(text, strlen(text), rounds));
    }
    printf("%d lists of 1 to 16 entries: no allocation in 1000 rounds each of reading with validity, printing into one output, checks and\n"
           "inheritance, nor of modes of 1 to 3 entries and of translations of 3 to 8\n\n", lists);
}

static void times(int n)
{
    static char text[16384], printed[16384];
    uint32_t gids[2] = {50, 60};
    text[0] = 0;
    for (int i = 0; i < n - 3; i++)
        sprintf(text + strlen(text), "%s:%d:%s\n", i % 4 == 3 ? "D:fdg" : i % 2 ? "A:fd" : "A:", 3000 + i, i % 4 == 3 ? "waDTNCo" : "rxtncy");
    strcat(text, "A::OWNER@:rwaxtTnNcCy\nA:g:50:rxtncy\nA::EVERYONE@:rtncy\n");
    size_t length = strlen(text);
    struct list list;
    struct string s = {0};
    if (!read_list(text, length, &list) || list.count != (size_t)n) { printf("refused\n"); exit(1); }
    print_list(&list, &s);
    size_t ours_length = aces_print(text, length, printed, sizeof printed);
    if (ours_length != s.length || memcmp(s.bytes, printed, s.length)) { printf("%.*s\nand\n%.*s\n", (int)s.length, s.bytes, (int)ours_length, printed); exit(1); }
    int rounds = 100000 / n, uids = n + 5, turns = rounds / uids * 4 + 1;
    double ours, theirs;
#define ROW(what) printf("| %d | %s | %.1f | %.1f | %.2f |\n", n, what, theirs, ours, theirs / ours)
    theirs = ours = 1e18;
    IN_TURNS {
        LEAST(theirs, rounds, for (int i = 0; i < rounds; i++) { struct list l; sink += read_list(text, length, &l); free(l.aces); });
        LEAST(ours, rounds, sink += aces_times_read(text, length, rounds));
    }
    ROW("read");
    theirs = ours = 1e18;
    IN_TURNS {
        LEAST(theirs, rounds, for (int i = 0; i < rounds; i++) { struct string t = {0}; print_list(&list, &t); sink += t.length; free(t.bytes); });
        LEAST(ours, rounds, sink += aces_times_printed(text, length, rounds));
    }
    ROW("print");
    theirs = ours = 1e18;
    uint64_t a = 0, b = 0;
    IN_TURNS {
        LEAST(theirs, turns * uids, for (int i = 0; i < turns; i++) for (int u = 0; u < uids; u++) a += grants(&list, 1, 2, 3000 + u, gids, 2, 1));
        LEAST(ours, turns * uids, b += aces_times_checked(text, length, 3000, uids, gids, 2, turns));
    }
    sink += a + b;
    ROW("check");
    theirs = ours = 1e18;
    IN_TURNS {
        LEAST(theirs, rounds, for (int i = 0; i < rounds; i++) { struct list l; sink += inherit(&list, 1, &l); free(l.aces); });
        LEAST(ours, rounds, sink += aces_times_inherited(text, length, 1, rounds));
    }
    ROW("inherit");
    free(list.aces), free(s.bytes);
}

/* Modes, on lists of which the entries name so many users; and translations of POSIX lists with half as many users as groups. */
static void times_changes(int n, int users)
{
    static char text[16384];
    struct list list;
    struct posix posix;
    char *end = text;
    for (int i = 0; i < n - 2; i++)
        end += sprintf(end, "%s:%d:%s\n", users < n - 2 && i % 4 == 3 ? "A:fd" : i % 4 == 1 ? "D:" : "A:", 3000 + i % users, i % 4 == 1 ? "aDTNCo" : "rxtncy");
    strcpy(end, "A:g:50:rxtncy\nA::EVERYONE@:rtncy\n");
    size_t length = strlen(text);
    if (!read_list(text, length, &list)) { printf("refused\n"); exit(1); }
    int rounds = 100000 / n;
    char what[64];
    double ours = 1e18, theirs = 1e18;
    if (aces_times_set(text, length, 0640, 1) == 0) { printf("a mode is refused\n"); exit(1); }
    IN_TURNS {
        LEAST(theirs, rounds, for (int i = 0; i < rounds; i++) { struct list l; sink += with_mode(&list, 0640, &l); free(l.aces); });
        LEAST(ours, rounds, sink += aces_times_set(text, length, 0640, rounds));
    }
    sprintf(what, "chmod, %d users", users);
    ROW(what);
    free(list.aces);
    if (n > 64 || users > 8) return;
    make_posix(&posix, text, (n - 4) / 3, n - 4 - (n - 4) / 3, 3000, 6, 5);
    length = strlen(text), theirs = ours = 1e18;
    IN_TURNS {
        LEAST(theirs, rounds, for (int i = 0; i < rounds; i++) { struct list l; sink += translated(&posix, &l); free(l.aces); });
        LEAST(ours, rounds, sink += acl_times_translated(text, length, rounds));
    }
    n = posix.count;
    ROW("translate");
}

/* Users by the names of a directory of 1024, beside the same users by number. */
static void times_names(int n)
{
    static char names[32768], text[16384], numbers[16384];
    names[0] = text[0] = numbers[0] = 0;
    for (int i = 0; i < 1024; i++) sprintf(names + strlen(names), "%suser-%d", i ? "\n" : "", i * 7919 % 1024);
    for (int i = 0; i < n; i++) {
        sprintf(text + strlen(text), "A::user-%d@local:rxtncy\n", (i * 7 + 3) * 7919 % 1024);
        sprintf(numbers + strlen(numbers), "A::%d:rxtncy\n", 10000 + i * 7 + 3);
    }
    int rounds = 50000 / n;
    double named = 1e18, numbered = 1e18;
    if (aces_times_names_read(names, strlen(names), text, strlen(text), 1) != (uint64_t)n) { printf("the names aren't read\n"); exit(1); }
    IN_TURNS {
        /* The directory is made at each call: so many rounds make that little. */
        LEAST(named, 20 * rounds, sink += aces_times_names_read(names, strlen(names), text, strlen(text), 20 * rounds));
        LEAST(numbered, rounds, sink += aces_times_read(numbers, strlen(numbers), rounds));
    }
    printf("| %d | %.1f | %.1f |\n", n, named, numbered);
}

/* Two lists of 128 entries that are alike, the second in another order. Entries are about users, groups or both by chance, of as many
   ids over and over. What is allowed isn't denied anywhere, so the order plays no part; and one bit is named nowhere, so no
   pass over the entries ends early. */
enum about { USERS, GROUPS, BOTH };

static void alike_aces(char *first, char *second, enum about about, int ids)
{
    static char lines[128][64];
    for (int i = 0; i < 128; i++) {
        int of_group = about == BOTH ? below(2) : about == GROUPS, id = 3000 + (ids < 128 ? (int)below(ids) : i);
        int denies = ids < 128 && below(2);
        sprintf(lines[i], "%c:%s:%d:%s\n", denies ? 'D' : 'A', of_group ? "g" : "", id, denies ? "waDTNCo" : "rxtnc");
    }
    for (int i = 0; i < 128; i++) first += sprintf(first, "%s", lines[i]);
    for (int i = 127; i > 0; i--) {
        int other = below(i + 1);
        char line[64];
        memcpy(line, lines[i], 64), memcpy(lines[i], lines[other], 64), memcpy(lines[other], line, 64);
    }
    for (int i = 0; i < 128; i++) second += sprintf(second, "%s", lines[i]);
}

static void times_compare(void)
{
    static const char *const whats[] = {"users", "groups", "users and groups"};
    static char first[16384], second[16384], changed[16384];
    double best;
    for (int ids = 128; ids > 1; ids /= 4)
        for (enum about about = USERS; about <= BOTH; about++) {
            alike_aces(first, second, about, ids);
            /* In place of the last entry everyone gets the bit that is named nowhere. */
            strcpy(changed, second), changed[strlen(changed) - 1] = 0, strcpy(strrchr(changed, '\n') + 1, "A::EVERYONE@:y\n");
            if (aces_times_compared(first, strlen(first), second, strlen(second), 1) != 1
                || aces_times_compared(first, strlen(first), changed, strlen(changed), 1) != 0) { printf("comparisons are wrong\n"); exit(1); }
            best = 1e18;
            IN_TURNS LEAST(best, 1, sink += aces_times_compared(first, strlen(first), second, strlen(second), 1));
            printf("| 128 NFSv4 entries of %s, %d ids | %.2f |\n", whats[about], ids, best / 1e6);
        }
    /* The second list has other permissions and another mask, and comes to the same. */
    for (int users = 0; users <= 60; users += 30) {
        struct posix posix;
        uint64_t before = state;
        make_posix(&posix, first, users, 60 - users, 3000, 6, 4), state = before;
        make_posix(&posix, second, users, 60 - users, 3000, 4, 6);
        if (acl_times_compared(first, strlen(first), second, strlen(second), 1) != 1
            || acl_times_compared_whole(first, strlen(first), second, strlen(second), 1) != 1) { printf("comparisons are wrong\n"); exit(1); }
        best = 1e18;
        IN_TURNS LEAST(best, 1, sink += acl_times_compared(first, strlen(first), second, strlen(second), 1));
        printf("| 64 POSIX entries of %d users and %d groups, each permission | %.2f |\n", users, 60 - users, best / 1e6);
        best = 1e18;
        IN_TURNS LEAST(best, 1, sink += acl_times_compared_whole(first, strlen(first), second, strlen(second), 1));
        printf("| 64 POSIX entries of %d users and %d groups, whole requests | %.2f |\n", users, 60 - users, best / 1e6);
    }
}

int main(int count, char **words)
{
    if (count > 1) {
        static char text[16384], posix_text[16384], second[16384];
        static const char few[] = "A:fd:3000:r,A::3001:w,A:g:50:x,A:d:3002:r";
        struct posix posix;
        uint32_t gids[2] = {50, 60};
        make_posix(&posix, posix_text, 20, 40, 3000, 6, 5);
        for (int i = 0; i < 60; i++) sprintf(text + strlen(text), "A:fd:%d:rxtncy\n", 3000 + i);
        for (int i = 0; i < 200; i++)
            switch (words[1][0]) {
            case 'r': sink += aces_times_read(text, strlen(text), 1000); break;
            case 'p': sink += aces_times_printed(text, strlen(text), 1000); break;
            case 'c': sink += aces_times_checked(text, strlen(text), 3000, 69, gids, 2, 1000); break;
            case 'i': sink += aces_times_inherited(few, strlen(few), 1, 100000); break;
            case 'm': sink += aces_times_set(few, strlen(few), 0640, 10000); break;
            case 't': sink += acl_times_translated(posix_text, strlen(posix_text), 1000); break;
            case 'a': alike_aces(text, second, BOTH, 8); sink += aces_times_compared(text, strlen(text), second, strlen(second), 1); break;
            }
        return 0;
    }
    compare(2000);
    count_allocations(320);
    printf("| entries | work | plain C ns | ours ns | ratio |\n|---|---|---|---|---|\n");
    times(4), times(16), times(64), times(128);
    times_changes(4, 2), times_changes(16, 8), times_changes(64, 8), times_changes(62, 60), times_changes(88, 8);
    printf("\n| entries | read, by name ns | by number ns |\n|---|---|---|\n");
    times_names(4), times_names(16), times_names(64), times_names(128);
    printf("\n| compare two that are alike | ms |\n|---|---|\n");
    times_compare();
    return 0;
}
