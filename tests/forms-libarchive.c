/*
 * Lets libarchive write NFSv4 lists and read them, for tests/try-forms.
 *
 *   forms-libarchive write   for each line `COMPACT COMMAS ENTRY..`: a line with the numbers of the list as libarchive keeps it,
 *                            its text, and an empty line
 *   forms-libarchive read    for each text, which an empty line ends: a line with its numbers, or `refused`
 *
 * COMPACT and COMMAS are 0 or 1. An entry is five numbers: its type, its flags and its mask, by the bits of RFC 8881, section
 * 6.2.1; whom it is about, 1 for the owner, 2 for the group, 3 for everyone, 0 for an id; and that id, of a group if the flags
 * have 0x40.
 */
#include <archive.h>
#include <archive_entry.h>
#include <limits.h>
#include <stdio.h>
#include <stdlib.h>
#include <string.h>

#define IDENTIFIER_GROUP 0x40
#define MOST 131072

struct pair {
    int theirs;
    unsigned long bit;
};

static const struct pair permissions[] = {
    {ARCHIVE_ENTRY_ACL_READ_DATA, 0x1},
    {ARCHIVE_ENTRY_ACL_WRITE_DATA, 0x2},
    {ARCHIVE_ENTRY_ACL_APPEND_DATA, 0x4},
    {ARCHIVE_ENTRY_ACL_READ_NAMED_ATTRS, 0x8},
    {ARCHIVE_ENTRY_ACL_WRITE_NAMED_ATTRS, 0x10},
    {ARCHIVE_ENTRY_ACL_EXECUTE, 0x20},
    {ARCHIVE_ENTRY_ACL_DELETE_CHILD, 0x40},
    {ARCHIVE_ENTRY_ACL_READ_ATTRIBUTES, 0x80},
    {ARCHIVE_ENTRY_ACL_WRITE_ATTRIBUTES, 0x100},
    {ARCHIVE_ENTRY_ACL_DELETE, 0x10000},
    {ARCHIVE_ENTRY_ACL_READ_ACL, 0x20000},
    {ARCHIVE_ENTRY_ACL_WRITE_ACL, 0x40000},
    {ARCHIVE_ENTRY_ACL_WRITE_OWNER, 0x80000},
    {ARCHIVE_ENTRY_ACL_SYNCHRONIZE, 0x100000},
    {0, 0},
};

static const struct pair flags[] = {
    {ARCHIVE_ENTRY_ACL_ENTRY_FILE_INHERIT, 0x1},
    {ARCHIVE_ENTRY_ACL_ENTRY_DIRECTORY_INHERIT, 0x2},
    {ARCHIVE_ENTRY_ACL_ENTRY_NO_PROPAGATE_INHERIT, 0x4},
    {ARCHIVE_ENTRY_ACL_ENTRY_INHERIT_ONLY, 0x8},
    {ARCHIVE_ENTRY_ACL_ENTRY_SUCCESSFUL_ACCESS, 0x10},
    {ARCHIVE_ENTRY_ACL_ENTRY_FAILED_ACCESS, 0x20},
    {ARCHIVE_ENTRY_ACL_ENTRY_INHERITED, 0x80},
    {0, 0},
};

static const int types[] = {
    ARCHIVE_ENTRY_ACL_TYPE_ALLOW,
    ARCHIVE_ENTRY_ACL_TYPE_DENY,
    ARCHIVE_ENTRY_ACL_TYPE_AUDIT,
    ARCHIVE_ENTRY_ACL_TYPE_ALARM,
};

/* By whom an entry is about; those of ids, of a user or a group, are told by the flags. */
static const int tags[] = {
    ARCHIVE_ENTRY_ACL_USER,
    ARCHIVE_ENTRY_ACL_USER_OBJ,
    ARCHIVE_ENTRY_ACL_GROUP_OBJ,
    ARCHIVE_ENTRY_ACL_EVERYONE,
};

static int as_theirs(const struct pair *table, unsigned long bits)
{
    int theirs = 0;
    for (; table->bit; table++)
        if (bits & table->bit)
            theirs |= table->theirs;
    return theirs;
}

static unsigned long as_bits(const struct pair *table, int theirs)
{
    unsigned long bits = 0;
    for (; table->bit; table++)
        if (theirs & table->theirs)
            bits |= table->bit;
    return bits;
}

/*
 * Adds an entry of five numbers. An id has its decimal for a name: libarchive keeps no number above INT_MAX, and of an entry
 * without a name it prints the number again behind the type, where the program takes none.
 */
static int add(struct archive_entry *list, const unsigned long *numbers)
{
    char name[32];
    int permset = as_theirs(flags, numbers[1]) | as_theirs(permissions, numbers[2]);
    int is_id = numbers[3] == 0;
    int tag = is_id && (numbers[1] & IDENTIFIER_GROUP) ? ARCHIVE_ENTRY_ACL_GROUP : tags[numbers[3]];
    int qualifier = is_id && numbers[4] <= INT_MAX ? (int)numbers[4] : -1;
    snprintf(name, sizeof name, "%lu", numbers[4]);
    return archive_entry_acl_add_entry(list, types[numbers[0]], permset, tag, qualifier, is_id ? name : NULL);
}

/* Prints the numbers of a list as libarchive tells its entries. */
static void print_numbers(struct archive_entry *list)
{
    int type, permset, tag, qualifier;
    const char *name, *between = "";
    archive_entry_acl_reset(list, ARCHIVE_ENTRY_ACL_TYPE_NFS4);
    while (archive_entry_acl_next(list, ARCHIVE_ENTRY_ACL_TYPE_NFS4, &type, &permset, &tag, &qualifier, &name) == ARCHIVE_OK) {
        int kind = 0, whom = 0;
        int is_group = tag == ARCHIVE_ENTRY_ACL_GROUP;
        while (kind < 3 && types[kind] != type)
            kind++;
        while (!is_group && whom < 3 && tags[whom] != tag)
            whom++;
        printf("%s%d %lu %lu %d %s", between, kind, as_bits(flags, permset) | (is_group ? IDENTIFIER_GROUP : 0),
            as_bits(permissions, permset), whom, whom || !name ? "0" : name);
        between = " ";
    }
    putchar('\n');
}

static int write_list(const char *line)
{
    unsigned long numbers[5];
    char *at;
    int style = strtoul(line, &at, 10) ? ARCHIVE_ENTRY_ACL_STYLE_COMPACT : 0;
    style |= strtoul(at, &at, 10) ? ARCHIVE_ENTRY_ACL_STYLE_SEPARATOR_COMMA : 0;
    struct archive_entry *list = archive_entry_new();
    while (*at == ' ') {
        for (int place = 0; place < 5; place++)
            numbers[place] = strtoul(at, &at, 10);
        if (numbers[0] > 3 || numbers[3] > 3 || add(list, numbers) != ARCHIVE_OK)
            return 1;
    }
    char *text = archive_entry_acl_to_text(list, NULL, style);
    if (!text)
        return 1;
    print_numbers(list);
    printf("%s\n\n", text);
    free(text);
    archive_entry_free(list);
    return 0;
}

static void read_list(const char *text)
{
    struct archive_entry *list = archive_entry_new();
    if (archive_entry_acl_from_text(list, text, ARCHIVE_ENTRY_ACL_TYPE_NFS4) == ARCHIVE_OK)
        print_numbers(list);
    else
        puts("refused");
    archive_entry_free(list);
}

int main(int count, char **words)
{
    static char line[MOST], text[MOST];
    int is_write = count == 2 && strcmp(words[1], "write") == 0;
    size_t used = 0;
    if (!is_write && (count != 2 || strcmp(words[1], "read") != 0))
        return 2;
    while (fgets(line, sizeof line, stdin)) {
        size_t length = strlen(line);
        if (is_write) {
            if (write_list(line))
                return 1;
        } else if (length == 1) {
            read_list(text);
            used = 0;
        } else if (used + length < sizeof text) {
            memcpy(text + used, line, length + 1);
            used += length;
        } else {
            return 1;
        }
    }
    return 0;
}
