/* meardwynfs: any folder, with NFSv4 lists for its files, decided by libmeardwyn; or with -o posix by the folder's
   own POSIX lists.

   meardwynfs -o allow_other,source=DIR[,domain=DOMAIN][,posix] MOUNTPOINT      as root

   Here are the operations and what each wants; access.c says whether it is granted. Nothing that was answered to one
   user is kept for another by the kernel: so it asks for each step of each path. */
#define FUSE_USE_VERSION 312
#include "access.h"
#include <dirent.h>
#include <fcntl.h>
#include <fuse_lowlevel.h>
#include <pthread.h>
#include <stdio.h>
#include <stdlib.h>
#include <string.h>
#include <sys/resource.h>
#include <sys/statvfs.h>
#include <sys/xattr.h>
#include <unistd.h>

#define SHOWN "system.nfs4_acl"
#define POSIX "system.posix_acl_"
enum { MOST_GROUPS = 65537, RUNS = 040 /* of flags, as the kernel opens a program */ };

static struct options {
    char *source, *domain;
    int posix;
} options;
static const struct fuse_opt words[] = {{"source=%s", offsetof(struct options, source), 0},
                                        {"domain=%s", offsetof(struct options, domain), 0},
                                        {"posix", offsetof(struct options, posix), 1},
                                        FUSE_OPT_END};
/* A list and the mode that it shows are two writes below: one change at a time. */
static pthread_mutex_t changing = PTHREAD_MUTEX_INITIALIZER;

/* ---- inodes: what the kernel knows of the folder, each with a descriptor */

struct inode {
    int fd;
    ino_t ino;
    dev_t dev;
    uint64_t lookups;
    struct inode *next;
};
static struct inode root, *table[4096];
static pthread_mutex_t lock = PTHREAD_MUTEX_INITIALIZER;

static struct inode *inode_of(fuse_ino_t ino) { return ino == FUSE_ROOT_ID ? &root : (struct inode *)(uintptr_t)ino; }
static int fd_of(fuse_ino_t ino) { return inode_of(ino)->fd; }
static int fd_below(int folder, const char *name) { return openat(folder, name, O_PATH | O_NOFOLLOW | O_CLOEXEC); }

/* What a name leads to, which is known from then on. FUSE asks nobody who opens a FIFO or a socket: none is shown. */
static int entry_of(int folder, const char *name, struct fuse_entry_param *entry)
{
    memset(entry, 0, sizeof *entry);
    struct stat *st = &entry->attr;
    int fd = fd_below(folder, name), failed = fd < 0 ? errno : stat_of(fd, st);
    if (!failed && !S_ISREG(st->st_mode) && !S_ISDIR(st->st_mode) && !S_ISLNK(st->st_mode)) failed = EPERM;
    if (failed) {
        if (fd >= 0) close(fd);
        return failed;
    }
    struct inode **at = &table[(st->st_ino ^ st->st_dev) % 4096], *it;
    pthread_mutex_lock(&lock);
    for (it = *at; it && (it->ino != st->st_ino || it->dev != st->st_dev); it = it->next) continue;
    if (it) close(fd);
    else if ((it = malloc(sizeof *it))) *it = (struct inode){fd, st->st_ino, st->st_dev, 0, *at}, *at = it;
    else close(fd), failed = ENOMEM;
    if (it) it->lookups++, entry->ino = (uintptr_t)it;
    pthread_mutex_unlock(&lock);
    return failed;
}

static void forget(fuse_ino_t ino, uint64_t count)
{
    struct inode *it = inode_of(ino), **at;
    if (it == &root) return;
    pthread_mutex_lock(&lock);
    if ((it->lookups -= count) == 0) {
        for (at = &table[(it->ino ^ it->dev) % 4096]; *at != it; at = &(*at)->next) continue;
        *at = it->next;
        close(it->fd);
        free(it);
    }
    pthread_mutex_unlock(&lock);
}

static void fs_forget(fuse_req_t req, fuse_ino_t ino, uint64_t count)
{
    forget(ino, count);
    fuse_reply_none(req);
}

static void fs_forget_multi(fuse_req_t req, size_t count, struct fuse_forget_data *all)
{
    for (size_t i = 0; i < count; i++) forget(all[i].ino, all[i].nlookup);
    fuse_reply_none(req);
}

static void reply_entry(fuse_req_t req, int failed, fuse_ino_t parent, const char *name)
{
    struct fuse_entry_param entry;
    if (!failed) failed = entry_of(fd_of(parent), name, &entry);
    failed ? fuse_reply_err(req, failed) : fuse_reply_entry(req, &entry);
}

/* ---- who asks */

static int who_of(fuse_req_t req, struct who *who)
{
    static _Thread_local gid_t gids[MOST_GROUPS];
    const struct fuse_ctx *context = fuse_req_ctx(req);
    int more = fuse_req_getgroups(req, MOST_GROUPS - 1, gids + 1);
    if (more < 0 || more >= MOST_GROUPS) return EPERM; /* a group less could miss a denial */
    gids[0] = context->gid;
    *who = (struct who){{context->uid, gids, more + 1}, context->gid, context->umask};
    return 0;
}

static int may_ask(fuse_req_t req, fuse_ino_t ino, struct want want)
{
    struct who who;
    int failed = who_of(req, &who);
    return failed ? failed : may(&who, fd_of(ino), want);
}

static struct want with(struct want one, struct want other)
{
    return (struct want){one.nfs4 | other.nfs4, one.posix | other.posix, one.is_owners || other.is_owners};
}

/* What it takes to open a file with some flags, and to access(2) it. */
static struct want want_of_flags(int flags)
{
    if (flags & RUNS) return EXECUTE;
    struct want want = (flags & O_ACCMODE) == O_WRONLY ? NOTHING : READ;
    if ((flags & O_ACCMODE) != O_RDONLY) want = with(want, flags & O_APPEND ? APPEND : WRITE);
    return flags & O_TRUNC ? with(want, WRITE) : want;
}

static struct want want_of_access(int mask)
{
    return with(with(mask & R_OK ? READ : NOTHING, mask & W_OK ? WRITE : NOTHING), mask & X_OK ? EXECUTE : NOTHING);
}

/* ---- attributes of files */

static void fs_lookup(fuse_req_t req, fuse_ino_t parent, const char *name)
{
    reply_entry(req, may_ask(req, parent, EXECUTE), parent, name);
}

static void fs_access(fuse_req_t req, fuse_ino_t ino, int mask)
{
    fuse_reply_err(req, may_ask(req, ino, want_of_access(mask)));
}

/* Everybody gets attributes: the kernel asks for them as whoever runs, opens or changes something. */
static void fs_getattr(fuse_req_t req, fuse_ino_t ino, struct fuse_file_info *open)
{
    (void)open;
    struct stat st;
    int failed = stat_of(fd_of(ino), &st);
    failed ? fuse_reply_err(req, failed) : fuse_reply_attr(req, &st, 0);
}

static void fs_readlink(fuse_req_t req, fuse_ino_t ino)
{
    char to[4097];
    ssize_t got = readlinkat(fd_of(ino), "", to, sizeof to - 1);
    if (got >= 0) to[got] = 0;
    got < 0 ? fuse_reply_err(req, errno) : fuse_reply_readlink(req, to);
}

/* An open file may be cut, if it wasn't opened to append. */
static int change_size(const struct who *who, int fd, const struct fuse_file_info *open, off_t size)
{
    bool is_open = open && !(fcntl(open->fh, F_GETFL) & O_APPEND);
    int failed = is_open ? 0 : may(who, fd, WRITE);
    return failed ? failed : errno_of(open ? ftruncate(open->fh, size) : truncate(path_of(fd).at, size));
}

/* Whoever may write may also set the times to now. */
static int change_times(const struct who *who, int fd, const struct stat *to, int what)
{
    const int now = FUSE_SET_ATTR_ATIME_NOW | FUSE_SET_ATTR_MTIME_NOW;
    struct timespec times[2] = {to->st_atim, to->st_mtim};
    int failed = may(who, fd, CHANGE_TIMES);
    if (failed && (what & now) == now) failed = may(who, fd, WRITE);
    if (!(what & FUSE_SET_ATTR_ATIME)) times[0].tv_nsec = UTIME_OMIT;
    else if (what & FUSE_SET_ATTR_ATIME_NOW) times[0].tv_nsec = UTIME_NOW;
    if (!(what & FUSE_SET_ATTR_MTIME)) times[1].tv_nsec = UTIME_OMIT;
    else if (what & FUSE_SET_ATTR_MTIME_NOW) times[1].tv_nsec = UTIME_NOW;
    return failed ? failed : errno_of(utimensat(fd, "", times, AT_EMPTY_PATH));
}

static int change(const struct who *who, int fd, const struct stat *to, int what, const struct fuse_file_info *open)
{
    const int owners = FUSE_SET_ATTR_UID | FUSE_SET_ATTR_GID, times = FUSE_SET_ATTR_ATIME | FUSE_SET_ATTR_MTIME;
    uid_t uid = what & FUSE_SET_ATTR_UID ? to->st_uid : (uid_t)-1;
    gid_t gid = what & FUSE_SET_ATTR_GID ? to->st_gid : (gid_t)-1;
    int failed = what & owners ? change_owner(who, fd, uid, gid) : 0;
    if (!failed && what & FUSE_SET_ATTR_SIZE) failed = change_size(who, fd, open, to->st_size);
    bool is_beside = what & (owners | FUSE_SET_ATTR_SIZE);
    if (!failed && what & FUSE_SET_ATTR_MODE) failed = change_mode(who, fd, to->st_mode, is_beside);
    if (!failed && what & times && !(what & FUSE_SET_ATTR_SIZE)) failed = change_times(who, fd, to, what);
    return failed;
}

static void fs_setattr(fuse_req_t req, fuse_ino_t ino, struct stat *to, int what, struct fuse_file_info *open)
{
    struct who who;
    struct stat st;
    int failed = who_of(req, &who);
    pthread_mutex_lock(&changing);
    if (!failed) failed = change(&who, fd_of(ino), to, what, open);
    pthread_mutex_unlock(&changing);
    if (!failed) failed = stat_of(fd_of(ino), &st);
    failed ? fuse_reply_err(req, failed) : fuse_reply_attr(req, &st, 0);
}

static void fs_statfs(fuse_req_t req, fuse_ino_t ino)
{
    struct statvfs st;
    fstatvfs(fd_of(ino), &st) ? fuse_reply_err(req, errno) : fuse_reply_statfs(req, &st);
}

/* ---- names in folders */

static int may_add(fuse_req_t req, fuse_ino_t parent, mode_t mode, struct who *who)
{
    int failed = who_of(req, who);
    return failed ? failed : may(who, fd_of(parent), S_ISDIR(mode) ? ADD_FOLDER : ADD_FILE);
}

/* Makes a file, a folder, or a link that leads somewhere: root's alone until it has its owner and list. */
static void make(fuse_req_t req, fuse_ino_t parent, const char *name, mode_t mode, const char *to)
{
    struct who who;
    int folder = fd_of(parent), failed = may_add(req, parent, mode, &who);
    if (!failed && !to && !S_ISREG(mode) && !S_ISDIR(mode)) failed = EPERM;
    if (!failed && to) failed = errno_of(symlinkat(to, folder, name));
    else if (!failed && S_ISDIR(mode)) failed = errno_of(mkdirat(folder, name, 0700));
    else if (!failed) failed = errno_of(mknodat(folder, name, S_IFREG | 0600, 0));
    if (!failed) {
        int fd = fd_below(folder, name);
        failed = fd < 0 ? errno : dress(&who, folder, fd, mode);
        if (failed) unlinkat(folder, name, S_ISDIR(mode) ? AT_REMOVEDIR : 0);
        if (fd >= 0) close(fd);
    }
    reply_entry(req, failed, parent, name);
}

static void fs_mkdir(fuse_req_t req, fuse_ino_t parent, const char *name, mode_t mode)
{
    make(req, parent, name, S_IFDIR | mode, NULL);
}

static void fs_symlink(fuse_req_t req, const char *to, fuse_ino_t parent, const char *name)
{
    make(req, parent, name, S_IFLNK | 0777, to);
}

static void fs_mknod(fuse_req_t req, fuse_ino_t parent, const char *name, mode_t mode, dev_t device)
{
    (void)device;
    make(req, parent, name, mode, NULL);
}

static void fs_link(fuse_req_t req, fuse_ino_t ino, fuse_ino_t parent, const char *name)
{
    struct who who;
    int failed = may_add(req, parent, S_IFREG, &who);
    if (!failed) failed = errno_of(linkat(AT_FDCWD, path_of(fd_of(ino)).at, fd_of(parent), name, AT_SYMLINK_FOLLOW));
    reply_entry(req, failed, parent, name);
}

static void take_away(fuse_req_t req, fuse_ino_t parent, const char *name, int flags)
{
    struct who who;
    int folder = fd_of(parent), fd = fd_below(folder, name), failed = fd < 0 ? errno : who_of(req, &who);
    if (!failed) failed = may_delete(&who, folder, fd);
    if (!failed) failed = errno_of(unlinkat(folder, name, flags));
    if (fd >= 0) close(fd);
    fuse_reply_err(req, failed);
}

static void fs_unlink(fuse_req_t req, fuse_ino_t parent, const char *name) { take_away(req, parent, name, 0); }
static void fs_rmdir(fuse_req_t req, fuse_ino_t parent, const char *name)
{
    take_away(req, parent, name, AT_REMOVEDIR);
}

static int may_rename(const struct who *who, int folder, int fd, int into, int replaced)
{
    struct stat st;
    int failed = stat_of(fd, &st);
    if (!failed) failed = may_delete(who, folder, fd);
    if (!failed) failed = may(who, into, S_ISDIR(st.st_mode) ? ADD_FOLDER : ADD_FILE);
    if (!failed && replaced >= 0) failed = may_delete(who, into, replaced);
    if (!failed && S_ISDIR(st.st_mode) && folder != into) failed = may(who, fd, MOVE_FOLDER);
    return failed;
}

static void fs_rename(fuse_req_t req, fuse_ino_t parent, const char *name, fuse_ino_t new_parent, const char *new_name,
                      unsigned flags)
{
    struct who who;
    int folder = fd_of(parent), into = fd_of(new_parent);
    int fd = fd_below(folder, name), replaced = fd_below(into, new_name);
    int failed = fd < 0 ? ENOENT : flags & ~RENAME_NOREPLACE ? EINVAL : who_of(req, &who);
    if (!failed) failed = may_rename(&who, folder, fd, into, replaced);
    if (!failed) failed = errno_of(renameat2(folder, name, into, new_name, flags));
    if (fd >= 0) close(fd);
    if (replaced >= 0) close(replaced);
    fuse_reply_err(req, failed);
}

/* ---- open files and folders */

static void fs_open(fuse_req_t req, fuse_ino_t ino, struct fuse_file_info *open_file)
{
    int failed = may_ask(req, ino, want_of_flags(open_file->flags)), fd = -1;
    int flags = (open_file->flags & ~(O_NOFOLLOW | O_CREAT | O_EXCL | RUNS)) | O_CLOEXEC;
    if (!failed) fd = open(path_of(fd_of(ino)).at, flags);
    if (fd < 0) {
        fuse_reply_err(req, failed ? failed : errno);
        return;
    }
    open_file->fh = fd;
    if (fuse_reply_open(req, open_file) == -ENOENT) close(fd);
}

static void fs_create(fuse_req_t req, fuse_ino_t parent, const char *name, mode_t mode, struct fuse_file_info *open_file)
{
    struct who who;
    struct fuse_entry_param entry;
    int folder = fd_of(parent), fd = -1, failed = may_add(req, parent, S_IFREG, &who);
    int flags = (open_file->flags & ~O_TRUNC) | O_CREAT | O_EXCL | O_NOFOLLOW | O_CLOEXEC;
    if (!failed) fd = openat(folder, name, flags, 0600);
    if (!failed && fd < 0) failed = errno;
    if (failed == EEXIST && !(open_file->flags & O_EXCL)) failed = ESTALE; /* made meanwhile: the kernel looks again */
    if (!failed && (failed = dress(&who, folder, fd, S_IFREG | mode))) unlinkat(folder, name, 0);
    if (!failed) failed = entry_of(folder, name, &entry);
    if (failed) {
        if (fd >= 0) close(fd);
        fuse_reply_err(req, failed);
        return;
    }
    open_file->fh = fd;
    if (fuse_reply_create(req, &entry, open_file) == -ENOENT) close(fd), forget(entry.ino, 1);
}

static void fs_release(fuse_req_t req, fuse_ino_t ino, struct fuse_file_info *open)
{
    (void)ino;
    close(open->fh);
    fuse_reply_err(req, 0);
}

static void fs_read(fuse_req_t req, fuse_ino_t ino, size_t size, off_t from, struct fuse_file_info *open)
{
    (void)ino;
    struct fuse_bufvec bytes = FUSE_BUFVEC_INIT(size);
    bytes.buf[0].flags = FUSE_BUF_IS_FD | FUSE_BUF_FD_SEEK;
    bytes.buf[0].fd = open->fh;
    bytes.buf[0].pos = from;
    fuse_reply_data(req, &bytes, FUSE_BUF_SPLICE_MOVE);
}

/* What was opened to append is so below too, whatever becomes of the flags above. */
static void fs_write_buf(fuse_req_t req, fuse_ino_t ino, struct fuse_bufvec *bytes, off_t from, struct fuse_file_info *open)
{
    (void)ino;
    struct fuse_bufvec to = FUSE_BUFVEC_INIT(fuse_buf_size(bytes));
    to.buf[0].flags = FUSE_BUF_IS_FD | FUSE_BUF_FD_SEEK;
    to.buf[0].fd = open->fh;
    to.buf[0].pos = from;
    ssize_t put = fuse_buf_copy(&to, bytes, 0);
    put < 0 ? fuse_reply_err(req, -put) : fuse_reply_write(req, put);
}

static void fs_flush(fuse_req_t req, fuse_ino_t ino, struct fuse_file_info *open)
{
    (void)ino;
    fuse_reply_err(req, errno_of(close(dup(open->fh))));
}

static void fs_fsync(fuse_req_t req, fuse_ino_t ino, int is_data, struct fuse_file_info *open)
{
    (void)ino;
    fuse_reply_err(req, errno_of(is_data ? fdatasync(open->fh) : fsync(open->fh)));
}

static DIR *folder_of(const struct fuse_file_info *open) { return (DIR *)(uintptr_t)open->fh; }

static void fs_opendir(fuse_req_t req, fuse_ino_t ino, struct fuse_file_info *open)
{
    int failed = may_ask(req, ino, LIST_FOLDER), fd = -1;
    if (!failed && (fd = openat(fd_of(ino), ".", O_RDONLY | O_DIRECTORY | O_CLOEXEC)) < 0) failed = errno;
    if (!failed && !(open->fh = (uintptr_t)fdopendir(fd))) failed = ENOMEM, close(fd);
    if (failed) fuse_reply_err(req, failed);
    else if (fuse_reply_open(req, open) == -ENOENT) closedir(folder_of(open));
}

static void fs_readdir(fuse_req_t req, fuse_ino_t ino, size_t size, off_t from, struct fuse_file_info *open)
{
    (void)ino;
    DIR *folder = folder_of(open);
    char *names = malloc(size);
    size_t used = 0, took = 0;
    if (!names) {
        fuse_reply_err(req, ENOMEM);
        return;
    }
    if (from != telldir(folder)) seekdir(folder, from);
    for (struct dirent *it; (it = readdir(folder)); used += took) {
        struct stat st = {.st_ino = it->d_ino, .st_mode = (mode_t)it->d_type << 12};
        took = fuse_add_direntry(req, names + used, size - used, it->d_name, &st, it->d_off);
        if (took > size - used) break; /* the next call goes back to it */
    }
    fuse_reply_buf(req, names, used);
    free(names);
}

static void fs_fsyncdir(fuse_req_t req, fuse_ino_t ino, int is_data, struct fuse_file_info *open)
{
    (void)ino, (void)is_data;
    fuse_reply_err(req, errno_of(fsync(dirfd(folder_of(open)))));
}

static void fs_releasedir(fuse_req_t req, fuse_ino_t ino, struct fuse_file_info *open)
{
    (void)ino;
    closedir(folder_of(open));
    fuse_reply_err(req, 0);
}

/* ---- extended attributes: the lists, and those of users */

static bool is_list(const char *name) { return !by_posix && !strcmp(name, SHOWN); }
static bool is_posix_list(const char *name) { return by_posix && !strncmp(name, POSIX, strlen(POSIX)); }
static bool is_shown(const char *name) { return !strncmp(name, "user.", 5) || is_posix_list(name); }

static int may_name(fuse_req_t req, fuse_ino_t ino, const char *name, bool is_change)
{
    if (is_list(name)) return may_ask(req, ino, is_change ? CHANGE_LIST : READ_LIST);
    if (is_posix_list(name)) return may_ask(req, ino, is_change ? CHANGE_LIST : NOTHING);
    return is_shown(name) ? may_ask(req, ino, is_change ? WRITE_NAMED : READ_NAMED) : EOPNOTSUPP;
}

static void fs_setxattr(fuse_req_t req, fuse_ino_t ino, const char *name, const char *value, size_t size, int flags)
{
    int fd = fd_of(ino), failed = may_name(req, ino, name, true);
    pthread_mutex_lock(&changing);
    if (!failed && is_list(name)) failed = set_list(fd, (const uint8_t *)value, size);
    else if (!failed) failed = errno_of(setxattr(path_of(fd).at, name, value, size, flags));
    pthread_mutex_unlock(&changing);
    fuse_reply_err(req, failed);
}

/* Bytes, or how many there are if no room is given. */
static void reply_bytes(fuse_req_t req, int failed, const void *bytes, size_t length, size_t room)
{
    if (failed || (room && length > room)) fuse_reply_err(req, failed ? failed : ERANGE);
    else if (room) fuse_reply_buf(req, bytes, length);
    else fuse_reply_xattr(req, length);
}

static void fs_getxattr(fuse_req_t req, fuse_ino_t ino, const char *name, size_t room)
{
    static _Thread_local uint8_t bytes[65536];
    size_t length = 0;
    ssize_t got = 0;
    int failed = may_name(req, ino, name, false);
    if (!failed && is_list(name)) failed = get_list(fd_of(ino), bytes, sizeof bytes, &length);
    else if (!failed) length = got = getxattr(path_of(fd_of(ino)).at, name, bytes, sizeof bytes), failed = errno_of(got);
    reply_bytes(req, failed, bytes, length, room);
}

static void fs_listxattr(fuse_req_t req, fuse_ino_t ino, size_t room)
{
    static _Thread_local char all[65536], shown[65536 + sizeof SHOWN];
    ssize_t got = listxattr(path_of(fd_of(ino)).at, all, sizeof all);
    char *to = shown;
    for (char *at = all; at < all + got; at += strlen(at) + 1)
        if (is_shown(at)) to = stpcpy(to, at) + 1;
    if (!by_posix) to = stpcpy(to, SHOWN) + 1;
    reply_bytes(req, got < 0 ? errno : 0, shown, to - shown, room);
}

static void fs_removexattr(fuse_req_t req, fuse_ino_t ino, const char *name)
{
    int fd = fd_of(ino), failed = may_name(req, ino, name, true);
    if (!failed) failed = is_list(name) ? drop_list(fd) : errno_of(removexattr(path_of(fd).at, name));
    fuse_reply_err(req, failed);
}

/* ---- the whole */

static void fs_init(void *data, struct fuse_conn_info *kernel)
{
    (void)data;
    kernel->want |= kernel->capable & (FUSE_CAP_DONT_MASK | FUSE_CAP_ATOMIC_O_TRUNC);
    kernel->want &= ~(FUSE_CAP_WRITEBACK_CACHE | FUSE_CAP_HANDLE_KILLPRIV | FUSE_CAP_POSIX_ACL);
}

static const struct fuse_lowlevel_ops operations = {
    .init = fs_init, .lookup = fs_lookup, .forget = fs_forget, .forget_multi = fs_forget_multi, .getattr = fs_getattr,
    .setattr = fs_setattr, .readlink = fs_readlink, .access = fs_access, .statfs = fs_statfs,
    .mkdir = fs_mkdir, .mknod = fs_mknod, .symlink = fs_symlink, .link = fs_link,
    .unlink = fs_unlink, .rmdir = fs_rmdir, .rename = fs_rename,
    .open = fs_open, .create = fs_create, .release = fs_release,
    .read = fs_read, .write_buf = fs_write_buf, .flush = fs_flush, .fsync = fs_fsync,
    .opendir = fs_opendir, .readdir = fs_readdir, .fsyncdir = fs_fsyncdir, .releasedir = fs_releasedir,
    .setxattr = fs_setxattr, .getxattr = fs_getxattr, .listxattr = fs_listxattr, .removexattr = fs_removexattr};

/* Serves until it is unmounted. */
static int serve(struct fuse_session *session, const struct fuse_cmdline_opts *how)
{
    if (fuse_set_signal_handlers(session)) return 1;
    int status = fuse_session_mount(session, how->mountpoint);
    if (!status) {
        struct fuse_loop_config *config = fuse_loop_cfg_create();
        fuse_daemonize(how->foreground);
        status = how->singlethread ? fuse_session_loop(session) : fuse_session_loop_mt(session, config);
        fuse_loop_cfg_destroy(config);
        fuse_session_unmount(session);
    }
    fuse_remove_signal_handlers(session);
    return status != 0;
}

int main(int count, char **all)
{
    struct fuse_args args = FUSE_ARGS_INIT(count, all);
    struct fuse_cmdline_opts how;
    struct rlimit files;
    if (fuse_parse_cmdline(&args, &how) || fuse_opt_parse(&args, &options, words, NULL)) return 1;
    const char *usage = "usage: meardwynfs -o source=DIR[,domain=DOMAIN][,posix] MOUNTPOINT\n";
    if (!options.source || !how.mountpoint) return fputs(usage, stderr), 2;
    by_posix = options.posix, domain = options.domain;
    root.fd = open(options.source, O_PATH | O_DIRECTORY | O_CLOEXEC);
    if (root.fd < 0) return perror(options.source), 1;
    if (!getrlimit(RLIMIT_NOFILE, &files)) files.rlim_cur = files.rlim_max, setrlimit(RLIMIT_NOFILE, &files);
    umask(0);
    struct fuse_session *session = fuse_session_new(&args, &operations, sizeof operations, NULL);
    int status = session ? serve(session, &how) : 1;
    if (session) fuse_session_destroy(session);
    free(how.mountpoint);
    fuse_opt_free_args(&args);
    return status;
}
