/* Names in the bytes of an NFSv4 list: clients send `alice` or `alice@example.org`, and lists are kept by ids. */
#include "access.h"
#include <grp.h>
#include <pwd.h>
#include <string.h>

/* Puts the id of a user or a group in place of its name. */
static bool has_id(struct meardwyn_ace *ace, const char *name, size_t length)
{
    char who[256], room[16384], *at;
    struct passwd user, *its_user = NULL;
    struct group group, *its_group = NULL;
    if (length >= sizeof who) return false;
    memcpy(who, name, length), who[length] = 0;
    if ((at = strchr(who, '@')) && (!domain || strcmp(at + 1, domain))) return false;
    if (at) *at = 0;
    if (ace->flag & MEARDWYN_NFS4_IDENTIFIER_GROUP) getgrnam_r(who, &group, room, sizeof room, &its_group);
    else getpwnam_r(who, &user, room, sizeof room, &its_user);
    if (!its_user && !its_group) return false;
    ace->special = MEARDWYN_BY_ID, ace->id = its_group ? its_group->gr_gid : its_user->pw_uid;
    return true;
}

int with_ids(const uint8_t *xdr, size_t length, struct meardwyn_ace aces[MEARDWYN_MOST_ACES], size_t *count)
{
    struct meardwyn_xdr_place place = {0};
    struct meardwyn_ace ace;
    int32_t answer;
    for (*count = 0; (answer = meardwyn_nfs4_xdr_next(xdr, length, &place, &ace)) == 1; aces[(*count)++] = ace) {
        if (*count == MEARDWYN_MOST_ACES) return ENOSPC;
        const char *name = (const char *)xdr + place.who_at;
        if (ace.special == MEARDWYN_BY_NAME && !has_id(&ace, name, place.who_len)) return EINVAL;
    }
    return meardwyn_errno(answer);
}
