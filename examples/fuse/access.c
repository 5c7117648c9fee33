/* What is decided, made and changed of lists. NFSv4 lists are kept as XDR in an attribute below, which root alone
   sees there. */
#include "access.h"
#include <fcntl.h>
#include <stdio.h>
#include <sys/xattr.h>
#include <unistd.h>

#define KEPT "trusted.meardwyn.nfs4_acl"
#define POSIX_ACCESS "system.posix_acl_access"
#define POSIX_DEFAULT "system.posix_acl_default"

int by_posix;
char *domain;

/* An NFSv4 list: what is kept, or what the mode says. */
struct list {
    struct meardwyn_ace aces[MEARDWYN_MOST_ACES];
    size_t count;
    bool is_kept;
};
/* A POSIX list: Linux may hold more than is one to the library. */
struct bytes {
    uint8_t at[65536];
    size_t length;
};

struct path path_of(int fd)
{
    struct path path;
    snprintf(path.at, sizeof path.at, "/proc/self/fd/%d", fd);
    return path;
}

int stat_of(int fd, struct stat *st) { return errno_of(fstatat(fd, "", st, AT_EMPTY_PATH | AT_SYMLINK_NOFOLLOW)); }

static struct meardwyn_file file_of(const struct stat *st) { return (struct meardwyn_file){st->st_uid, st->st_gid}; }

static bool is_in(const struct who *who, gid_t gid)
{
    for (size_t i = 0; i < who->user.gids_len; i++)
        if (who->user.gids[i] == gid) return true;
    return false;
}

static bool has_none(void) { return errno == ENODATA || errno == ENOTSUP; }

static int list_of(int fd, const struct stat *st, struct list *list)
{
    uint8_t xdr[MEARDWYN_MOST_XDR];
    ssize_t got = S_ISLNK(st->st_mode) ? -1 : getxattr(path_of(fd).at, KEPT, xdr, sizeof xdr);
    int32_t error;
    list->is_kept = got >= 0;
    if (list->is_kept) error = meardwyn_nfs4_from_xdr(xdr, got, list->aces, MEARDWYN_MOST_ACES, &list->count);
    else if (!S_ISLNK(st->st_mode) && !has_none()) return errno;
    else error = meardwyn_nfs4_of_mode(st->st_mode & 0777, true, list->aces, MEARDWYN_MOST_ACES, &list->count);
    return error ? EIO : 0;
}

static int posix_list_of(int fd, const struct stat *st, struct bytes *list)
{
    ssize_t got = getxattr(path_of(fd).at, POSIX_ACCESS, list->at, sizeof list->at);
    if (got < 0 && !has_none()) return errno;
    if (got < 0) return meardwyn_posix_of_mode(st->st_mode & 0777, list->at, sizeof list->at, &list->length) ? EIO : 0;
    list->length = got;
    return 0;
}

/* ---- decisions */

/* What of a list that the owner set is the owner's whatever it says, so that nobody locks themselves out. */
static const uint32_t OWNERS = MEARDWYN_NFS4_READ_ATTRIBUTES | MEARDWYN_NFS4_WRITE_ATTRIBUTES |
                               MEARDWYN_NFS4_READ_ACL | MEARDWYN_NFS4_WRITE_ACL;

static int nfs4_grants(const struct who *who, int fd, const struct stat *st, struct want want, bool *granted)
{
    struct list list;
    struct meardwyn_file file = file_of(st);
    int32_t error;
    int failed = list_of(fd, st, &list);
    if (failed) return failed;
    uint32_t request = who->user.uid == st->st_uid ? want.nfs4 & ~OWNERS : want.nfs4;
    *granted = meardwyn_nfs4_grants_for(list.aces, list.count, &file, &who->user, request, &error);
    return error ? EIO : 0;
}

static int posix_grants(const struct who *who, int fd, const struct stat *st, struct want want, bool *granted)
{
    static _Thread_local struct bytes list;
    struct meardwyn_file file = file_of(st);
    int32_t error;
    int failed = posix_list_of(fd, st, &list);
    if (failed) return failed;
    *granted = meardwyn_posix_grants_linux_for(list.at, list.length, &file, &who->user, want.posix, &error);
    if (want.is_owners && who->user.uid != st->st_uid) *granted = false;
    return error ? EIO : 0;
}

int may(const struct who *who, int fd, struct want want)
{
    struct stat st;
    bool granted = false;
    int failed = stat_of(fd, &st);
    if (failed) return failed;
    /* As Linux has it: root may do all but run what nobody may. */
    bool runs = want.nfs4 & MEARDWYN_NFS4_EXECUTE && S_ISREG(st.st_mode);
    if (who->user.uid == 0) return runs && !(st.st_mode & 0111) ? EACCES : 0;
    failed = by_posix ? posix_grants(who, fd, &st, want, &granted) : nfs4_grants(who, fd, &st, want, &granted);
    return failed ? failed : granted ? 0 : want.is_owners ? EPERM : EACCES;
}

static int nfs4_deletes(const struct who *who, int folder, const struct stat *in, int fd, const struct stat *of,
                        bool *granted)
{
    struct list above, own;
    struct meardwyn_file folder_file = file_of(in), file = file_of(of);
    int32_t error;
    int failed = may(who, folder, EXECUTE);
    if (!failed) failed = list_of(folder, in, &above);
    if (!failed) failed = list_of(fd, of, &own);
    if (failed) return failed;
    *granted = meardwyn_nfs4_may_delete_for(above.aces, above.count, &folder_file, in->st_mode & S_ISVTX, own.aces,
                                            own.count, &file, &who->user, &error);
    return error ? EIO : 0;
}

static int posix_deletes(const struct who *who, int folder, const struct stat *in, const struct stat *of,
                         bool *granted)
{
    static _Thread_local struct bytes list;
    struct meardwyn_file folder_file = file_of(in), file = file_of(of);
    int32_t error;
    int failed = posix_list_of(folder, in, &list);
    if (failed) return failed;
    *granted = meardwyn_posix_may_delete_linux_for(list.at, list.length, &folder_file, in->st_mode & S_ISVTX, &file,
                                                   &who->user, &error);
    return error ? EIO : 0;
}

int may_delete(const struct who *who, int folder, int fd)
{
    struct stat in, of;
    bool granted = false;
    int failed = stat_of(folder, &in);
    if (!failed) failed = stat_of(fd, &of);
    if (failed || who->user.uid == 0) return failed;
    failed = by_posix ? posix_deletes(who, folder, &in, &of, &granted)
                      : nfs4_deletes(who, folder, &in, fd, &of, &granted);
    return failed ? failed : granted ? 0 : EACCES;
}

/* ---- what is made, and changes */

static int keep(int fd, const struct list *list, mode_t mode)
{
    uint8_t xdr[MEARDWYN_MOST_XDR];
    size_t length;
    int32_t error = meardwyn_nfs4_to_xdr(list->aces, list->count, xdr, sizeof xdr, &length);
    if (error) return meardwyn_errno(error);
    int failed = errno_of(setxattr(path_of(fd).at, KEPT, xdr, length, 0));
    return failed ? failed : errno_of(chmod(path_of(fd).at, mode));
}

static int nfs4_dress(const struct who *who, int folder, const struct stat *in, int fd, mode_t mode)
{
    struct list above, made;
    struct meardwyn_making making = {S_ISDIR(mode) ? MEARDWYN_DIRECTORY : MEARDWYN_FILE, mode & 0777,
                                     who->umask & 0777, MEARDWYN_CHMOD_LEAST};
    uint32_t shown;
    int failed = list_of(folder, in, &above);
    if (failed) return failed;
    int32_t told = meardwyn_nfs4_create(above.aces, above.count, &making, made.aces, MEARDWYN_MOST_ACES, &made.count,
                                        &shown);
    if (told < 0) return meardwyn_errno(told);
    mode = (mode & 07000) | shown;
    return told == 0 ? keep(fd, &made, mode) : errno_of(chmod(path_of(fd).at, mode));
}

/* The default list of a new folder is below already. */
static int posix_dress(const struct who *who, int folder, int fd, mode_t mode)
{
    static _Thread_local struct bytes above, made;
    struct path path = path_of(fd);
    ssize_t got = getxattr(path_of(folder).at, POSIX_DEFAULT, above.at, sizeof above.at);
    if (got < 0) return has_none() ? errno_of(chmod(path.at, mode & 07777 & ~who->umask)) : errno;
    int32_t told = meardwyn_posix_create(above.at, got, mode & 0777, made.at, sizeof made.at, &made.length);
    int32_t shown = told ? told : meardwyn_posix_mode(made.at, made.length);
    if (shown < 0) return meardwyn_errno(shown);
    int failed = errno_of(chmod(path.at, (mode & 07000) | shown));
    return failed ? failed : errno_of(setxattr(path.at, POSIX_ACCESS, made.at, made.length, 0));
}

int dress(const struct who *who, int folder, int fd, mode_t mode)
{
    struct stat in;
    int failed = stat_of(folder, &in);
    if (failed) return failed;
    bool is_setgid = in.st_mode & S_ISGID;
    if (is_setgid && S_ISDIR(mode)) mode |= S_ISGID;
    gid_t gid = is_setgid ? in.st_gid : who->gid;
    failed = errno_of(fchownat(fd, "", who->user.uid, gid, AT_EMPTY_PATH | AT_SYMLINK_NOFOLLOW));
    if (failed || S_ISLNK(mode)) return failed;
    return by_posix ? posix_dress(who, folder, fd, mode) : nfs4_dress(who, folder, &in, fd, mode);
}

/* Whether all that a mode changes is that setuid or setgid go: where somebody writes, the kernel asks for that. */
static bool drops_ids(mode_t mode, mode_t now)
{
    const mode_t ids = S_ISUID | S_ISGID;
    return mode != now && (mode | ids) == (now | ids) && !(mode & ~now);
}

int change_mode(const struct who *who, int fd, mode_t mode, bool is_beside)
{
    struct stat st;
    struct list list, changed;
    int failed = stat_of(fd, &st);
    if (failed) return failed;
    mode &= 07777;
    bool drops = drops_ids(mode, st.st_mode & 07777);
    if (!(drops && is_beside)) failed = may(who, fd, CHANGE_LIST);
    if (failed && drops) failed = may(who, fd, WRITE);
    if (!failed && !by_posix) failed = list_of(fd, &st, &list);
    if (failed) return failed;
    if (who->user.uid && !is_in(who, st.st_gid)) mode &= ~S_ISGID;
    if (by_posix || drops || !list.is_kept) return errno_of(chmod(path_of(fd).at, mode));
    int32_t error = meardwyn_nfs4_chmod(list.aces, list.count, mode & 0777, MEARDWYN_CHMOD_LEAST, changed.aces,
                                        MEARDWYN_MOST_ACES, &changed.count);
    return error ? meardwyn_errno(error) : keep(fd, &changed, mode);
}

int change_owner(const struct who *who, int fd, uid_t uid, gid_t gid)
{
    struct stat st;
    int failed = stat_of(fd, &st);
    if (!failed) failed = may(who, fd, CHANGE_OWNER);
    /* Only root gives a file away. */
    bool is_to_self = uid == (uid_t)-1 || uid == who->user.uid;
    bool is_to_own_group = gid == (gid_t)-1 || gid == st.st_gid || is_in(who, gid);
    if (!failed && who->user.uid && !(is_to_self && is_to_own_group)) failed = EPERM;
    return failed ? failed : errno_of(fchownat(fd, "", uid, gid, AT_EMPTY_PATH | AT_SYMLINK_NOFOLLOW));
}

/* ---- lists as bytes */

int get_list(int fd, uint8_t *xdr, size_t room, size_t *length)
{
    struct stat st;
    struct list list;
    int failed = stat_of(fd, &st);
    if (!failed) failed = list_of(fd, &st, &list);
    return failed ? failed : meardwyn_errno(meardwyn_nfs4_to_xdr(list.aces, list.count, xdr, room, length));
}

int set_list(int fd, const uint8_t *xdr, size_t length)
{
    size_t needed;
    struct stat st;
    struct list list;
    int failed = stat_of(fd, &st);
    if (!failed) failed = with_ids(xdr, length, list.aces, &list.count);
    if (failed) return failed;
    int32_t shown = meardwyn_nfs4_mode(list.aces, list.count), told = shown;
    if (shown >= 0) told = meardwyn_nfs4_chmod(list.aces, list.count, shown, MEARDWYN_CHMOD_LEAST, NULL, 0, &needed);
    if (told && told != MEARDWYN_NO_ROOM) return meardwyn_errno(told); /* a mode could never be set on it */
    return keep(fd, &list, (st.st_mode & 07000) | shown);
}

int drop_list(int fd) { return errno_of(removexattr(path_of(fd).at, KEPT)); }
