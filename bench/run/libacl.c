/* A session of POSIX commands as a user of libacl writes it: lines are cut where they stand, nodes stand in a hash table with
   an acl_t each, and what libacl has a call for is that call: acl_from_text and acl_valid for `set`, acl_to_any_text for `get`,
   and its entries one after the other for `check` and for modes. Nothing touches a file. The users, the groups and the umask
   are those of bench.c's setup. It knows no default lists and no NFSv4 lists. */
#include <stdint.h>
#include <stdio.h>
#include <stdlib.h>
#include <string.h>
#include "../libacl.h"

struct user { const char *name; uid_t uid; gid_t gids[2]; int count; };
struct group { const char *name; gid_t gid; };
static const struct user users[] = {{"root", 0, {0}, 1}, {"alice", 1000, {50}, 1}, {"bob", 1001, {50, 60}, 2}, {"carol", 1002, {70}, 1}};
static const struct group groups[] = {{"root", 0}, {"staff", 50}, {"ops", 60}, {"guest", 70}};
enum { USERS = 4, GROUPS = 4, UMASK = 022, SLOTS = 16384, MOST_NODES = 4096 };

struct node { char *path; size_t length; uint64_t hash; int is_dir; uid_t owner; gid_t group; acl_t acl; };
static struct node nodes[MOST_NODES];
static int node_count, slots[SLOTS];

static uint64_t hash_of(const char *path, size_t length)
{
    uint64_t hash = 14695981039346656037u;
    for (size_t i = 0; i < length; i++) hash = (hash ^ (unsigned char)path[i]) * 1099511628211u;
    return hash;
}

/* The slot of the path: that of its node, or the free one where it belongs. */
static int *slot_of(const char *path, size_t length, uint64_t hash)
{
    size_t at = hash % SLOTS;
    for (; slots[at]; at = (at + 1) % SLOTS) {
        const struct node *node = &nodes[slots[at] - 1];
        if (node->hash == hash && node->length == length && !memcmp(node->path, path, length)) break;
    }
    return &slots[at];
}

static struct node *find(const char *path, size_t length)
{
    int found = *slot_of(path, length, hash_of(path, length));
    return found ? &nodes[found - 1] : NULL;
}

static void add_node(const char *path, size_t length, int is_dir, uid_t owner, gid_t group, int mode)
{
    uint64_t hash = hash_of(path, length);
    int *slot = slot_of(path, length, hash);
    struct node *node = &nodes[node_count++];
    *node = (struct node){malloc(length + 1), length, hash, is_dir, owner, group, acl_from_mode(mode)};
    if (!node->path || !node->acl) abort();
    memcpy(node->path, path, length), node->path[length] = 0;
    *slot = node_count;
}

/* The entries of a mode: the group's is the mask where there is one. */
struct classes { acl_entry_t user, group, other; };

static struct classes classes_of(acl_t acl)
{
    struct classes of = {0};
    acl_entry_t entry;
    int masked = 0;
    for (int got = acl_get_entry(acl, ACL_FIRST_ENTRY, &entry); got == 1; got = acl_get_entry(acl, ACL_NEXT_ENTRY, &entry)) {
        acl_tag_t tag;
        acl_get_tag_type(entry, &tag);
        if (tag == ACL_USER_OBJ) of.user = entry;
        else if (tag == ACL_OTHER) of.other = entry;
        else if (tag == ACL_MASK) of.group = entry, masked = 1;
        else if (tag == ACL_GROUP_OBJ && !masked) of.group = entry;
    }
    return of;
}

/* The next word of the line, ended by a zero byte; NULL where there is none. */
static char *word(char **line)
{
    char *at = *line;
    while (*at == ' ' || *at == '\t') at++;
    if (!*at) return NULL;
    char *end = at;
    while (*end && *end != ' ' && *end != '\t') end++;
    *line = *end ? end + 1 : end;
    *end = 0;
    return at;
}

static int is_path(const char *path, size_t length)
{
    if (length > 255 || path[0] != '/') return 0;
    if (length == 1) return 1;
    const char *start = path + 1;
    for (const char *p = start;; p++) {
        if (*p && *p != '/') {
            if (!((*p >= 'a' && *p <= 'z') || (*p >= 'A' && *p <= 'Z') || (*p >= '0' && *p <= '9') || strchr("._-+", *p))) return 0;
            continue;
        }
        size_t size = p - start;
        if (size == 0 || size > 64 || (size == 1 && *start == '.') || (size == 2 && !memcmp(start, "..", 2))) return 0;
        if (!*p) return 1;
        start = p + 1;
    }
}

static int read_mode(const char *digits, int *mode)
{
    if (strlen(digits) == 4 && *digits == '0') digits++;
    *mode = 0;
    for (int i = 0; i < 3; i++) {
        if (digits[i] < '0' || digits[i] > '7') return 0;
        *mode = *mode * 8 + (digits[i] - '0');
    }
    return digits[3] == 0;
}

static int read_perms(const char *letters, int *perms)
{
    *perms = 0;
    size_t length = strlen(letters);
    if (length < 1 || length > 3) return 0;
    for (; *letters; letters++) {
        int bit = *letters == 'r' ? 4 : *letters == 'w' ? 2 : *letters == 'x' ? 1 : 0;
        if ((!bit && *letters != '-') || *perms & bit) return 0;
        *perms |= bit;
    }
    return 1;
}

static int read_user(const char *name, struct user *user)
{
    uint64_t id = 0;
    size_t digits = strspn(name, "0123456789");
    if (digits && digits <= 10 && !name[digits]) {
        for (; *name; name++) id = id * 10 + (*name - '0');
        if (id > 4294967294u) return 0;
        for (int i = 0; i < USERS; i++) if (users[i].uid == id) return *user = users[i], 1;
        return *user = (struct user){.uid = id}, 1;
    }
    for (int i = 0; i < USERS; i++) if (!strcmp(users[i].name, name)) return *user = users[i], 1;
    return 0;
}

static char *put(char *out, const char *text)
{
    size_t length = strlen(text);
    memcpy(out, text, length);
    return out + length;
}

static char *put_number(char *out, uint64_t number)
{
    char digits[20];
    int n = 0;
    do digits[n++] = '0' + number % 10; while (number /= 10);
    while (n) *out++ = digits[--n];
    return out;
}

static char *put_user(char *out, uid_t uid)
{
    for (int i = 0; i < USERS; i++) if (users[i].uid == uid) return put(out, users[i].name);
    return put_number(out, uid);
}

static char *put_group(char *out, gid_t gid)
{
    for (int i = 0; i < GROUPS; i++) if (groups[i].gid == gid) return put(out, groups[i].name);
    return put_number(out, gid);
}

static char *put_node(char *out, const struct node *node)
{
    struct classes of = classes_of(node->acl);
    out = put(out, "get ");
    out = put(out, node->path);
    out = put(out, node->is_dir ? " dir " : " file ");
    out = put_user(out, node->owner);
    *out++ = ' ';
    out = put_group(out, node->group);
    *out++ = ' ';
    *out++ = '0' + perms_of(of.user), *out++ = '0' + perms_of(of.group), *out++ = '0' + perms_of(of.other);
    out = put(out, " posix\n");
    char *text = acl_to_any_text(node->acl, NULL, '\n', TEXT_SOME_EFFECTIVE | TEXT_NUMERIC_IDS);
    if (!text) abort();
    out = put(out, text);
    acl_free(text);
    *out++ = '\n';
    return out;
}

static const char *create(char *rest)
{
    char *kind = word(&rest), *path = word(&rest), *name = word(&rest), *digits = word(&rest);
    struct user user;
    int mode;
    if (!digits || word(&rest) || (strcmp(kind, "file") && strcmp(kind, "dir"))) return "error 1 syntax\n";
    size_t length = strlen(path);
    if (!is_path(path, length)) return "error 2 bad-path\n";
    if (!read_user(name, &user)) return "error 5 unknown-name\n";
    if (!read_mode(digits, &mode)) return "error 3 bad-mode\n";
    size_t above = strrchr(path, '/') - path;
    const struct node *parent = find(path, above ? above : 1);
    if (length == 1 || find(path, length)) return parent ? "error 21 exists\n" : "error 20 no-such-path\n";
    if (!parent) return "error 20 no-such-path\n";
    if (!parent->is_dir) return "error 22 not-a-directory\n";
    if (node_count == MOST_NODES) return "error 26 full\n";
    add_node(path, length, !strcmp(kind, "dir"), user.uid, user.count ? user.gids[0] : parent->group, mode & ~UMASK);
    return "ok\n";
}

static const char *set(char *rest)
{
    char *path = word(&rest), *which = word(&rest);
    if (!which || strcmp(which, "access")) return "error 1 syntax\n";
    size_t length = strlen(path);
    if (!is_path(path, length)) return "error 2 bad-path\n";
    acl_t acl = acl_from_text(rest);
    if (!acl) return "error 6 bad-acl\n";
    if (acl_valid(acl)) return acl_free(acl), "error 7 invalid-acl\n";
    struct node *node = find(path, length);
    if (!node) return acl_free(acl), "error 20 no-such-path\n";
    acl_free(node->acl);
    node->acl = acl;
    return "ok\n";
}

static const char *chmod_node(char *rest)
{
    char *path = word(&rest), *digits = word(&rest);
    int mode;
    if (!digits || word(&rest)) return "error 1 syntax\n";
    size_t length = strlen(path);
    if (!is_path(path, length)) return "error 2 bad-path\n";
    if (!read_mode(digits, &mode)) return "error 3 bad-mode\n";
    struct node *node = find(path, length);
    if (!node) return "error 20 no-such-path\n";
    struct classes of = classes_of(node->acl);
    set_perms(of.user, mode >> 6), set_perms(of.group, mode >> 3 & 7), set_perms(of.other, mode & 7);
    return "ok\n";
}

static const char *check(char *rest)
{
    char *path = word(&rest), *name = word(&rest), *letters = word(&rest);
    struct user user;
    int perms;
    if (!letters || word(&rest)) return "error 1 syntax\n";
    size_t length = strlen(path);
    if (!is_path(path, length)) return "error 2 bad-path\n";
    if (!read_user(name, &user)) return "error 5 unknown-name\n";
    if (!read_perms(letters, &perms)) return "error 4 bad-perms\n";
    const struct node *node = find(path, length);
    if (!node) return "error 20 no-such-path\n";
    return libacl_grants(node->acl, node->owner, node->group, user.uid, user.gids, user.count, perms) ? "granted\n" : "denied\n";
}

static char *get(char *out, char *rest)
{
    char *path = word(&rest);
    if (!path || word(&rest)) return put(out, "error 1 syntax\n");
    size_t length = strlen(path);
    if (!is_path(path, length)) return put(out, "error 2 bad-path\n");
    const struct node *node = find(path, length);
    return node ? put_node(out, node) : put(out, "error 20 no-such-path\n");
}

/* The answer to a line, if it is a command. */
static char *answer(char *out, uint64_t number, char *line)
{
    while (*line == ' ' || *line == '\t') line++;
    if (!*line || *line == '#') return out;
    out = put_number(out, number);
    *out++ = ' ';
    char *command = word(&line);
    if (!strcmp(command, "get")) return get(out, line);
    if (!strcmp(command, "set")) return put(out, set(line));
    if (!strcmp(command, "chmod")) return put(out, chmod_node(line));
    if (!strcmp(command, "check")) return put(out, check(line));
    if (!strcmp(command, "create")) return put(out, create(line));
    return put(out, "error 1 syntax\n");
}

/* Runs the session on a tree of a root alone, and prints its answers; how long they are, or 0 where room runs out. The text is
   cut into lines in a copy. All answers are made first, in a text that grows by doubling, and then copied at once, as run_one
   does. */
size_t libacl_prints(const char *text, size_t length, char *printed, size_t room)
{
    size_t most = 4096, made = 0;
    char *copy = malloc(length + 1), *answers = malloc(most);
    if (!copy || !answers) abort();
    memcpy(copy, text, length), copy[length] = 0;
    memset(slots, 0, sizeof slots), node_count = 0;
    add_node("/", 1, 1, 0, 0, 0755);
    uint64_t number = 0;
    for (char *line = copy; line < copy + length;) {
        char *end = memchr(line, '\n', copy + length - line);
        if (!end) end = copy + length;
        *end = 0, number++;
        /* A node has at most 8 entries here, and so an answer at most 2048 bytes. */
        if (most - made < 2048 && !(answers = realloc(answers, most *= 2))) abort();
        char *out = answers + made;
        out = end - line > 1024 ? put(put_number(out, number), " error 10 line-too-long\n") : answer(out, number, line);
        made = out - answers, line = end + 1;
    }
    if (made > room) made = 0;
    memcpy(printed, answers, made);
    for (int i = 0; i < node_count; i++) acl_free(nodes[i].acl), free(nodes[i].path);
    free(copy), free(answers);
    return made;
}
