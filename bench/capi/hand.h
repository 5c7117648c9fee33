/* A check on the bytes of a POSIX list as a C program writes it by hand: one pass, as Linux's posix_acl_permission decides, without
   its special treatment of an empty mask. 1 granted, 0 denied, -1 no list. It trusts the order of tags as the kernel does after
   posix_acl_valid. */
#include "bytes.h"

/* posix_acl_valid's checks alone. */
static int hand_valid(const uint8_t *xattr, size_t length)
{
    if (length < 4 || le32(xattr) != 2 || (length - 4) % 8) return -1;
    int state = 1, needs_mask = 0;
    for (const uint8_t *e = xattr + 4; e < xattr + length; e += 8) {
        if (le16(e + 2) & ~7u) return -1;
        switch (le16(e)) {
        case 0x01: if (state != 1) return -1; state = 2; break;
        case 0x02: if (state != 2 || le32(e + 4) == UINT32_MAX) return -1; needs_mask = 1; break;
        case 0x04: if (state != 2) return -1; state = 8; break;
        case 0x08: if (state != 8 || le32(e + 4) == UINT32_MAX) return -1; needs_mask = 1; break;
        case 0x10: if (state != 8) return -1; state = 0x20; break;
        case 0x20: if (state != 0x20 && !(state == 8 && !needs_mask)) return -1; state = 0; break;
        default: return -1;
        }
    }
    return state ? -1 : 0;
}

static int in_groups(uint32_t gid, const uint32_t *gids, size_t count)
{
    for (size_t i = 0; i < count; i++) if (gids[i] == gid) return 1;
    return 0;
}

/* posix_acl_permission over the bytes; the caller has them valid. */
static int hand_permission(const uint8_t *xattr, size_t length, uint32_t owner, uint32_t group, uint32_t uid, const uint32_t *gids,
                           size_t count, uint32_t want)
{
    const uint8_t *end = xattr + length;
    int found = 0;
    for (const uint8_t *e = xattr + 4; e < end; e += 8) {
        uint32_t perms = le16(e + 2);
        switch (le16(e)) {
        case 0x01: if (uid == owner) return (perms & want) == want; break;
        case 0x02: if (le32(e + 4) == uid) goto mask; break;
        case 0x04: if (in_groups(group, gids, count)) { found = 1; if ((perms & want) == want) goto mask; } break;
        case 0x08: if (in_groups(le32(e + 4), gids, count)) { found = 1; if ((perms & want) == want) goto mask; } break;
        case 0x10: break;
        case 0x20: if (found) return 0; return (perms & want) == want;
        }
        continue;
    mask:
        for (const uint8_t *m = e + 8; m < end; m += 8)
            if (le16(m) == 0x10) return (le16(m + 2) & perms & want) == want;
        return (perms & want) == want;
    }
    return 0;
}

static int hand_applies(const struct meardwyn_ace *a, uint32_t owner, uint32_t group, uint32_t uid, const uint32_t *gids, size_t count)
{
    switch (a->special) {
    case 1: return uid == owner;
    case 2: return in_groups(group, gids, count);
    case 3: return 1;
    default: return a->flag & 0x40 ? in_groups(a->id, gids, count) : a->id == uid;
    }
}

/* RFC 8881, section 6.2.1, over entries that the caller has valid. 1 granted, 0 denied. */
__attribute__((noinline)) static int hand_nfs4(const struct meardwyn_ace *aces, size_t n, uint32_t owner, uint32_t group, uint32_t uid,
                                               const uint32_t *gids, size_t count, uint32_t want)
{
    for (const struct meardwyn_ace *a = aces; a < aces + n && want; a++) {
        if (a->type > 1 || a->flag & 8 || !(a->access_mask & want) || !hand_applies(a, owner, group, uid, gids, count)) continue;
        if (a->type == 1) return 0;
        want &= ~a->access_mask;
    }
    return want == 0;
}

/* The same with the tests of each entry, and what is allowed and denied. -1 for an entry that is none. */
__attribute__((noinline)) static int hand_decide(const struct meardwyn_ace *aces, size_t n, uint32_t owner, uint32_t group, uint32_t uid,
                                                 const uint32_t *gids, size_t count, uint32_t want, struct meardwyn_decided *said)
{
    said->allowed = said->denied = 0;
    for (const struct meardwyn_ace *a = aces; a < aces + n && want; a++) {
        if (a->type > 3 || a->flag > 0xff || a->access_mask & ~0x1f07ffu || a->special > 3 || (!a->special && a->id == UINT32_MAX)) return -1;
        if (a->type > 1 || a->flag & 8 || !(a->access_mask & want) || !hand_applies(a, owner, group, uid, gids, count)) continue;
        *(a->type ? &said->denied : &said->allowed) |= want & a->access_mask;
        want &= ~a->access_mask;
    }
    return 0;
}

/* Whether an entry is one, and which it is of what calls tell if not. */
static int hand_fault(const struct meardwyn_ace *a)
{
    if (a->type > 3) return MEARDWYN_BAD_TYPE;
    if (a->flag > 0xff) return MEARDWYN_BAD_FLAGS;
    if (a->access_mask & ~0x1f07ffu) return MEARDWYN_BAD_MASK;
    if (a->special > 3) return MEARDWYN_BAD_WHO;
    return !a->special && a->id == UINT32_MAX ? MEARDWYN_BAD_ID : 0;
}

static uint32_t be32(const uint8_t *at) { return (uint32_t)at[0] << 24 | (uint32_t)at[1] << 16 | (uint32_t)at[2] << 8 | at[3]; }
static void put_be32(uint8_t *at, uint32_t it) { at[0] = it >> 24, at[1] = it >> 16, at[2] = it >> 8, at[3] = it; }

/* A who of XDR: one of the three, or an id in decimal. */
static int hand_who(const uint8_t *who, size_t length, struct meardwyn_ace *a)
{
    uint64_t id = 0;
    a->special = length == 6 && !memcmp(who, "OWNER@", 6) ? 1 : length == 6 && !memcmp(who, "GROUP@", 6) ? 2 : length == 9 && !memcmp(who, "EVERYONE@", 9) ? 3 : 0;
    a->id = 0;
    if (a->special) return 0;
    if (!length || length > 10) return MEARDWYN_UNKNOWN_NAME;
    for (size_t i = 0; i < length; i++) {
        if (who[i] < '0' || who[i] > '9') return MEARDWYN_UNKNOWN_NAME;
        id = id * 10 + who[i] - '0';
    }
    a->id = id;
    return id > UINT32_MAX ? MEARDWYN_BAD_ID : 0;
}

/* The bytes of system.nfs4_acl, read and put. */
__attribute__((noinline)) static int hand_from_xdr(const uint8_t *xdr, size_t length, struct meardwyn_ace *out, size_t room, size_t *needed)
{
    if (length < 4) return MEARDWYN_BAD_SIZE;
    size_t n = be32(xdr), at = 4;
    if (n > room) return MEARDWYN_NO_ROOM;
    for (size_t i = 0; i < n; i++) {
        if (length - at < 16) return MEARDWYN_BAD_SIZE;
        struct meardwyn_ace *a = out + i;
        a->type = be32(xdr + at), a->flag = be32(xdr + at + 4), a->access_mask = be32(xdr + at + 8);
        size_t who = be32(xdr + at + 12), filled = (who + 3) & ~(size_t)3;
        at += 16;
        if (length - at < filled) return MEARDWYN_BAD_SIZE;
        int fault = hand_who(xdr + at, who, a);
        if (!fault) fault = hand_fault(a);
        if (fault) return fault;
        if (a->special) a->flag &= ~0x40u;
        at += filled;
    }
    *needed = n;
    return at == length ? 0 : MEARDWYN_BAD_SIZE;
}
__attribute__((noinline)) static int hand_to_xdr(const struct meardwyn_ace *aces, size_t n, uint8_t *out, size_t room, size_t *needed)
{
    static const char *const names[] = {"", "OWNER@", "GROUP@", "EVERYONE@"};
    size_t at = 4;
    if (n > MEARDWYN_MOST_ACES) return MEARDWYN_TOO_MANY;
    if (room < MEARDWYN_XDR_SIZE(n)) return MEARDWYN_NO_ROOM;
    put_be32(out, n);
    for (const struct meardwyn_ace *a = aces; a < aces + n; a++) {
        int fault = hand_fault(a);
        if (fault) return fault;
        char digits[10];
        size_t who = 0;
        put_be32(out + at, a->type), put_be32(out + at + 4, a->flag), put_be32(out + at + 8, a->access_mask);
        if (a->special) who = strlen(names[a->special]), memcpy(out + at + 16, names[a->special], who);
        else {
            uint32_t id = a->id;
            do digits[9 - who++] = '0' + id % 10; while (id /= 10);
            memcpy(out + at + 16, digits + 10 - who, who);
        }
        put_be32(out + at + 12, who);
        for (at += 16 + who; at % 4; at++) out[at] = 0;
    }
    *needed = at;
    return 0;
}

enum { HAND_OF_MODE = 0x27 };
static uint32_t hand_bits(uint32_t digit) { return (digit & 4 ? 1 : 0) | (digit & 2 ? 6 : 0) | (digit & 1 ? 0x20 : 0); }
static int hand_decides(const struct meardwyn_ace *a) { return a->type < 2 && !(a->flag & 8); }

/* What is made in a folder has of its list (RFC 8881, 6.4.3). */
static size_t hand_inherit(const struct meardwyn_ace *aces, size_t n, int is_dir, struct meardwyn_ace *out)
{
    size_t made = 0;
    for (const struct meardwyn_ace *a = aces; a < aces + n; a++) {
        uint32_t files = a->flag & 1, folders = a->flag & 2, is_last = a->flag & 4, flag = a->flag & ~0xfu;
        if (is_dir ? !folders && (!files || is_last) : !files) continue;
        if (is_dir && !is_last) flag |= files | folders | (folders ? 0 : 8);
        out[made] = *a, out[made++].flag = flag;
    }
    return made;
}

/* A DENY of what the others have and the group lacks, for whoever is named and not denied it. */
static size_t hand_deny(const struct meardwyn_ace *aces, size_t n, uint32_t missing, struct meardwyn_ace *out)
{
    size_t made = 0;
    for (size_t i = 0; i < n && missing; i++) {
        uint32_t left = missing;
        if (!hand_decides(aces + i) || aces[i].special) continue;
        for (size_t k = 0; k < n; k++) {
            if (!hand_decides(aces + k) || aces[k].special || aces[k].id != aces[i].id || (aces[k].flag ^ aces[i].flag) & 0x40) continue;
            if (k < i) left = 0;
            else if (aces[k].type) left &= ~aces[k].access_mask;
        }
        if (left) out[made++] = (struct meardwyn_ace){MEARDWYN_DENY, aces[i].flag & 0x40, left, 0, aces[i].id};
    }
    return made;
}

/* A mode set on a list, with the least denials (6.4.1.1, docs/PROFILE.md). out has room for three times as many, and five. */
static size_t hand_chmod(const struct meardwyn_ace *aces, size_t n, uint32_t mode, struct meardwyn_ace *out)
{
    uint32_t user = hand_bits(mode >> 6), group = hand_bits(mode >> 3), other = hand_bits(mode);
    size_t made = 0;
#define HAND_PUT(type, mask, special) do { if (mask) out[made++] = (struct meardwyn_ace){type, 0, mask, special, 0}; } while (0)
    HAND_PUT(MEARDWYN_ALLOW, user, MEARDWYN_OWNER);
    HAND_PUT(MEARDWYN_DENY, HAND_OF_MODE & ~user, MEARDWYN_OWNER);
    for (const struct meardwyn_ace *a = aces; a < aces + n; a++) {
        if (!hand_decides(a)) { out[made++] = *a; continue; }
        uint32_t flag = a->flag, mask = a->access_mask;
        if (flag & 3) out[made] = *a, out[made++].flag |= 8, flag &= ~0xfu;
        if (a->special) mask &= ~(uint32_t)HAND_OF_MODE;
        else if (!a->type) mask &= ~(HAND_OF_MODE & ~group);
        if (mask) out[made] = *a, out[made].flag = flag, out[made++].access_mask = mask;
    }
    made += hand_deny(aces, n, other & ~group, out + made);
    HAND_PUT(MEARDWYN_ALLOW, group, MEARDWYN_GROUP);
    HAND_PUT(MEARDWYN_DENY, HAND_OF_MODE & ~group, MEARDWYN_GROUP);
    HAND_PUT(MEARDWYN_ALLOW, other, MEARDWYN_EVERYONE);
    return made;
}

/* meardwyn_nfs4_create. The entries are tested as there. */
__attribute__((noinline)) static int hand_create(const struct meardwyn_ace *aces, size_t n, const struct meardwyn_making *making,
                                                 struct meardwyn_ace *out, size_t room, size_t *needed, uint32_t *mode)
{
    struct meardwyn_ace above[MEARDWYN_MOST_ACES], made[3 * MEARDWYN_MOST_ACES + 5];
    if (n > MEARDWYN_MOST_ACES) return MEARDWYN_TOO_MANY;
    for (size_t i = 0; i < n; i++) {
        int fault = hand_fault(aces + i);
        if (!fault && (aces[i].flag & 0xb) == 8) fault = MEARDWYN_INHERIT_ONLY;
        if (fault) return fault;
    }
    size_t count = hand_inherit(aces, n, making->kind, above);
    *needed = 0, *mode = making->mode & ~making->umask;
    if (!count) return 1;
    *needed = hand_chmod(above, count, making->mode, made), *mode = making->mode;
    if (*needed > MEARDWYN_MOST_ACES) return MEARDWYN_TOO_MANY;
    if (*needed > room) return MEARDWYN_NO_ROOM;
    memcpy(out, made, *needed * sizeof *out);
    return 0;
}
