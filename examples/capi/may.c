/* Whether a user may do something with a file: may UID GID[,GID..] PERMS FILE. The groups are all that the user is in, PERMS is a
   digit, 4 to read, 2 to write, 1 to execute. It prints what Linux decides by the file's list, or by its mode if it has none. The
   folders above aren't asked. */
#include <errno.h>
#include <meardwyn.h>
#include <stdio.h>
#include <stdlib.h>
#include <sys/stat.h>
#include <sys/xattr.h>

static uint32_t number(char **at)
{
    char *from = *at;
    unsigned long read = strtoul(from, at, 10);
    if (*at == from || read >= UINT32_MAX || (**at && **at != ',')) fputs("usage: may UID GID[,GID..] PERMS FILE\n", stderr), exit(2);
    *at += **at == ',';
    return read;
}

int main(int count, char **words)
{
    if (count != 5) words[1] = "", number(words + 1);
    uint32_t uid = number(words + 1), gids[1024], perms = number(words + 3);
    size_t groups = 0, length = 0;
    while (*words[2]) {
        if (groups == 1024) return fputs("more than 1024 groups\n", stderr), 2;
        gids[groups++] = number(words + 2);
    }

    struct stat file;
    if (stat(words[4], &file)) return perror(words[4]), 1;
    static uint8_t list[65536]; /* Linux may hold more than is a list here */
    ssize_t got = getxattr(words[4], "system.posix_acl_access", list, sizeof list);
    if (got >= 0) length = got;
    else if (errno != ENODATA && errno != EOPNOTSUPP) return perror(words[4]), 1;
    else if (meardwyn_posix_of_mode(file.st_mode & 0777, list, sizeof list, &length)) return fputs("no list of a mode\n", stderr), 1;

    struct meardwyn_file its = {file.st_uid, file.st_gid};
    struct meardwyn_user user = {uid, gids, groups};
    int32_t error;
    bool granted = meardwyn_posix_grants_linux_for(list, length, &its, &user, perms, &error);
    if (error) return fprintf(stderr, "%s: %s\n", words[4], meardwyn_strerror(error)), 1;
    puts(granted ? "granted" : "denied");
    return 0;
}
