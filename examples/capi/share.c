/* What becomes of a file in a folder with an NFSv4 list, as a file server has it: share LIST UID GID[,GID..] MODE. LIST is root's
   folder's, "A:fd:OWNER@:rwaxdDtTnNcCoy,A:fdg:50:rxtncy". The user makes a file there, by open(2) with 0666 under the umask 022, and sets
   MODE on it. It prints the list at each step, and what the user may do then. */
#include <meardwyn.h>
#include <stdio.h>
#include <stdlib.h>
#include <string.h>

/* An NFSv4 list, as calls take it. */
struct list {
    struct meardwyn_ace aces[MEARDWYN_MOST_ACES];
    size_t length;
};

static void stop_on(int32_t error, const char *what)
{
    if (error >= 0) return;
    fprintf(stderr, "%s: %s\n", what, meardwyn_strerror(error));
    exit(1);
}

static uint32_t number(char **at, int base)
{
    char *from = *at;
    unsigned long read = strtoul(from, at, base);
    if (*at == from || read >= UINT32_MAX || (**at && **at != ',')) fputs("usage: share LIST UID GID[,GID..] MODE\n", stderr), exit(2);
    *at += **at == ',';
    return read;
}

static void print(const char *step, const struct list *list, uint32_t mode)
{
    char text[MEARDWYN_MOST_ACES * 64];
    size_t length;
    stop_on(meardwyn_nfs4_to_text(list->aces, list->length, text, sizeof text, &length), step);
    for (size_t i = 0; i < length; i++) if (text[i] == '\n') text[i] = ',';
    printf("%s %04o %.*s\n", step, (unsigned)mode, (int)length, text);
}

/* The list of a new file, and its mode: what it inherits from the folder's list, or what the mode says. */
static uint32_t create(const struct list *folder, struct list *made)
{
    struct meardwyn_making making = {MEARDWYN_FILE, 0666, 022, MEARDWYN_CHMOD_LEAST};
    uint32_t mode;
    int32_t answer = meardwyn_nfs4_create(folder->aces, folder->length, &making, made->aces, MEARDWYN_MOST_ACES, &made->length, &mode);
    if (answer == 1) answer = meardwyn_nfs4_of_mode(mode, true, made->aces, MEARDWYN_MOST_ACES, &made->length);
    stop_on(answer, "create");
    return mode;
}

/* What a server keeps of a list are the bytes of system.nfs4_acl; they are read as the same list again. */
static void keep(struct list *list)
{
    uint8_t xdr[MEARDWYN_MOST_XDR];
    size_t length;
    stop_on(meardwyn_nfs4_to_xdr(list->aces, list->length, xdr, sizeof xdr, &length), "keep");
    stop_on(meardwyn_nfs4_from_xdr(xdr, length, list->aces, MEARDWYN_MOST_ACES, &list->length), "read");
}

int main(int count, char **words)
{
    if (count != 5) words[1] = "", number(words + 1, 10);
    uint32_t uid = number(words + 2, 10), gids[1024], mode = number(words + 4, 8);
    size_t groups = 0;
    while (*words[3]) {
        if (groups == 1024) return fputs("more than 1024 groups\n", stderr), 2;
        gids[groups++] = number(words + 3, 10);
    }
    struct meardwyn_user user = {uid, gids, groups};
    struct meardwyn_file roots = {0, 0}, its = {uid, groups ? gids[0] : 0};
    static struct list folder, made, changed;
    int32_t error;

    stop_on(meardwyn_nfs4_from_text(words[1], strlen(words[1]), folder.aces, MEARDWYN_MOST_ACES, &folder.length), "the folder's list");
    if (!meardwyn_nfs4_grants_for(folder.aces, folder.length, &roots, &user, MEARDWYN_NFS4_ADD_FILE | MEARDWYN_NFS4_EXECUTE, &error))
        return stop_on(error, "decide"), puts("the folder takes no file of this user"), 0;
    uint32_t shown = create(&folder, &made);
    keep(&made);
    print("made", &made, shown);

    stop_on(meardwyn_nfs4_chmod(made.aces, made.length, mode, MEARDWYN_CHMOD_LEAST, changed.aces, MEARDWYN_MOST_ACES, &changed.length), "chmod");
    keep(&changed);
    int32_t its_mode = meardwyn_nfs4_mode(changed.aces, changed.length);
    stop_on(its_mode, "mode");
    print("set", &changed, its_mode);

    struct meardwyn_decided said;
    uint32_t asked = MEARDWYN_NFS4_READ_DATA | MEARDWYN_NFS4_WRITE_DATA | MEARDWYN_NFS4_APPEND_DATA | MEARDWYN_NFS4_EXECUTE;
    stop_on(meardwyn_nfs4_decide_for(changed.aces, changed.length, &its, &user, asked, &said), "decide");
    bool deletes = meardwyn_nfs4_may_delete_for(folder.aces, folder.length, &roots, false, changed.aces, changed.length, &its, &user, &error);
    stop_on(error, "delete");
    printf("the user may%s%s%s%s\n", said.allowed & MEARDWYN_NFS4_READ_DATA ? " read" : "", said.allowed & MEARDWYN_NFS4_WRITE_DATA ? " write" : "",
           said.allowed & MEARDWYN_NFS4_EXECUTE ? " execute" : "", deletes ? " delete" : "");
    return 0;
}
