/*
 * Tells the users and groups of this host as the C library finds them, for tests/try-accounts, which puts other files in the place
 * of /etc/passwd and /etc/group.
 *
 *   accounts-nss    for each line of standard input: a line `user NAME UID GID..` for each user, with the gids of all groups that the
 *                   user gets when somebody logs in, a line `group NAME GID` for each group, and a line `.`
 *
 * Names are in hexadecimal, behind an x. Those of which a name is listed, and is found by no look-up, aren't told.
 */
#define _GNU_SOURCE
#include <grp.h>
#include <pwd.h>
#include <stdio.h>
#include <stdlib.h>
#include <string.h>

#define MOST_NAMES 4096
#define MOST_GROUPS 65536

static char *names[MOST_NAMES];

static void keep(int *count, const char *name)
{
    char *kept = strdup(name);
    if (!kept || *count == MOST_NAMES)
        exit(1);
    names[(*count)++] = kept;
}

static void print_name(const char *kind, const char *name)
{
    printf("%s x", kind);
    for (; *name; name++)
        printf("%02x", (unsigned char)*name);
}

static void print_user(const char *name)
{
    static gid_t groups[MOST_GROUPS];
    int count = MOST_GROUPS;
    struct passwd *user = getpwnam(name);
    if (!user)
        return;
    if (getgrouplist(name, user->pw_gid, groups, &count) < 0)
        exit(1);
    print_name("user", name);
    printf(" %lu", (unsigned long)user->pw_uid);
    for (int place = 0; place < count; place++)
        printf(" %lu", (unsigned long)groups[place]);
    putchar('\n');
}

static void print_group(const char *name)
{
    struct group *group = getgrnam(name);
    if (!group)
        return;
    print_name("group", name);
    printf(" %lu\n", (unsigned long)group->gr_gid);
}

/* Prints each of the names, and lets it go. */
static void print_names(int count, void (*print)(const char *))
{
    for (int place = 0; place < count; place++) {
        print(names[place]);
        free(names[place]);
    }
}

static void print_all(void)
{
    int count = 0;
    setpwent();
    for (struct passwd *user = getpwent(); user; user = getpwent())
        keep(&count, user->pw_name);
    endpwent();
    print_names(count, print_user);
    count = 0;
    setgrent();
    for (struct group *group = getgrent(); group; group = getgrent())
        keep(&count, group->gr_name);
    endgrent();
    print_names(count, print_group);
    puts(".");
    fflush(stdout);
}

int main(void)
{
    char line[16];
    while (fgets(line, sizeof line, stdin))
        print_all();
    return 0;
}
