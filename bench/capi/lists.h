/* Random POSIX lists as the bytes of an extended attribute. */
#include <stdint.h>
#include <stddef.h>
#include <string.h>

enum { USER_OBJ = 1, USER = 2, GROUP_OBJ = 4, GROUP = 8, MASK = 0x10, OTHER = 0x20 };
enum { MOST = 4 + 8 * 70 };

static uint64_t state = 88172645463325252u;
static uint32_t below(uint32_t n)
{
    state ^= state << 13, state ^= state >> 7, state ^= state << 17;
    return (uint32_t)(state >> 33) % n;
}

struct bytes { uint8_t at[MOST]; size_t length; };

static void put16(uint8_t *p, uint32_t n) { p[0] = n, p[1] = n >> 8; }
static void put32(uint8_t *p, uint32_t n) { put16(p, n), put16(p + 2, n >> 16); }

static void begin(struct bytes *b) { put32(b->at, 2), b->length = 4; }
static void add(struct bytes *b, int tag, uint32_t id, int perms)
{
    uint8_t *p = b->at + b->length;
    put16(p, tag), put16(p + 2, perms), put32(p + 4, id);
    b->length += 8;
}

/* A valid list in canonical order, of n entries: 3, or at least 5. Ids are below 3 * n + 1. */
static inline void random_list(struct bytes *b, int n)
{
    uint32_t none = UINT32_MAX, id = 0;
    int named = n > 4 ? n - 4 : 0, users = named ? (int)below(named + 1) : 0;
    begin(b);
    add(b, USER_OBJ, none, below(8));
    for (int i = 0; i < users; i++) add(b, USER, id += 1 + below(3), below(8));
    add(b, GROUP_OBJ, none, below(8));
    id = 0;
    for (int i = users; i < named; i++) add(b, GROUP, id += 1 + below(3), below(8));
    if (n > 3) add(b, MASK, none, below(8));
    add(b, OTHER, none, below(8));
}

static void swap_entries(struct bytes *b, int i, int j)
{
    uint8_t kept[8];
    memcpy(kept, b->at + 4 + 8 * i, 8);
    memcpy(b->at + 4 + 8 * i, b->at + 4 + 8 * j, 8);
    memcpy(b->at + 4 + 8 * j, kept, 8);
}

static inline void shuffle(struct bytes *b)
{
    int n = (b->length - 4) / 8;
    for (int i = n - 1; i > 0; i--) swap_entries(b, i, below(i + 1));
}

/* Something may be wrong with it then: an entry more or less, another tag, id or permissions. */
static inline void bend(struct bytes *b)
{
    int n = (b->length - 4) / 8, at = n ? below(n) : 0;
    uint8_t *entry = b->at + 4 + 8 * at;
    switch (below(7)) {
    case 0: if (n) { swap_entries(b, at, n - 1), b->length -= 8; } break;
    case 1: add(b, 1 << below(6), below(4), below(8)); break;
    case 2: if (n) add(b, le16(entry), le32(entry + 4), below(8)); break;
    case 3: if (n) put16(entry, 1 << below(6)); break;
    case 4: if (n) put32(entry + 4, below(2) ? UINT32_MAX : below(5)); break;
    case 5: if (n) put16(entry + 2, below(8)); break;
    case 6: break;
    }
}
