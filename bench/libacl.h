/* What users of libacl write that the library has no call for: an entry's permissions, and the check. */
#include <acl/libacl.h>
#include <sys/acl.h>

static inline int perms_of(acl_entry_t entry)
{
    acl_permset_t set;
    acl_get_permset(entry, &set);
    return (acl_get_perm(set, ACL_READ) ? 4 : 0) | (acl_get_perm(set, ACL_WRITE) ? 2 : 0) | (acl_get_perm(set, ACL_EXECUTE) ? 1 : 0);
}

static inline void set_perms(acl_entry_t entry, int perms)
{
    acl_permset_t set;
    acl_get_permset(entry, &set);
    acl_clear_perms(set);
    if (perms & 4) acl_add_perm(set, ACL_READ);
    if (perms & 2) acl_add_perm(set, ACL_WRITE);
    if (perms & 1) acl_add_perm(set, ACL_EXECUTE);
}

/* Draft 17's check over libacl's entries, as a user of that library writes it. */
static int libacl_grants(acl_t acl, uid_t owner, gid_t group, uid_t uid, const gid_t *gids, int count, int want)
{
    acl_entry_t entry;
    int mask = 7, user_obj = 0, other = 0, in_group = 0, group_has = 0, named = -1;
    for (int got = acl_get_entry(acl, ACL_FIRST_ENTRY, &entry); got == 1; got = acl_get_entry(acl, ACL_NEXT_ENTRY, &entry)) {
        acl_tag_t tag;
        acl_get_tag_type(entry, &tag);
        int perms = perms_of(entry);
        if (tag == ACL_USER_OBJ) user_obj = perms;
        else if (tag == ACL_OTHER) other = perms;
        else if (tag == ACL_MASK) mask = perms;
        else if (tag == ACL_USER) {
            uid_t *id = acl_get_qualifier(entry);
            if (*id == uid) named = perms;
            acl_free(id);
        } else {
            gid_t gid = group;
            if (tag == ACL_GROUP) {
                gid_t *id = acl_get_qualifier(entry);
                gid = *id;
                acl_free(id);
            }
            for (int i = 0; i < count; i++)
                if (gids[i] == gid) {
                    in_group = 1;
                    if ((perms & want) == want) group_has = 1;
                }
        }
    }
    if (uid == owner) return (user_obj & want) == want;
    if (named >= 0) return (named & mask & want) == want;
    if (in_group) return group_has && (mask & want) == want;
    return (other & want) == want;
}
