/* libacl's lists, of the bytes of an extended attribute. */
#include "../libacl.h"

static acl_t libacl_of(const struct bytes *b)
{
    acl_t acl = acl_init(70);
    for (const uint8_t *p = b->at + 4; p < b->at + b->length; p += 8) {
        acl_entry_t entry;
        uint32_t id = le32(p + 4);
        acl_create_entry(&acl, &entry);
        acl_set_tag_type(entry, le16(p));
        if (le16(p) == USER || le16(p) == GROUP) acl_set_qualifier(entry, &id);
        set_perms(entry, le16(p + 2));
    }
    return acl;
}
