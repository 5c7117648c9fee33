/* Who may do what with a file, and which list and mode it has: access.c asks libmeardwyn. What can fail tells a
   number of errno, or 0. */
#ifndef ACCESS_H
#define ACCESS_H
#include <errno.h>
#include <meardwyn.h>
#include <sys/stat.h>

/* Whoever asks; umask is of what they make. */
struct who {
    struct meardwyn_user user;
    gid_t gid;
    mode_t umask;
};

/* What an operation wants: these bits of an NFSv4 list, or these permissions of a POSIX one; some are the owner's. */
struct want {
    uint32_t nfs4, posix;
    bool is_owners;
};
#define NFS4(bit) MEARDWYN_NFS4_##bit
#define POSIX(permission) MEARDWYN_POSIX_##permission
static const struct want NOTHING = {0, 0, false};
static const struct want READ = {NFS4(READ_DATA), POSIX(READ), false};
static const struct want WRITE = {NFS4(WRITE_DATA) | NFS4(APPEND_DATA), POSIX(WRITE), false};
static const struct want APPEND = {NFS4(APPEND_DATA), POSIX(WRITE), false};
static const struct want EXECUTE = {NFS4(EXECUTE), POSIX(EXECUTE), false};
static const struct want LIST_FOLDER = {NFS4(LIST_DIRECTORY), POSIX(READ), false};
static const struct want ADD_FILE = {NFS4(ADD_FILE) | NFS4(EXECUTE), POSIX(WRITE) | POSIX(EXECUTE), false};
static const struct want ADD_FOLDER = {NFS4(ADD_SUBDIRECTORY) | NFS4(EXECUTE), POSIX(WRITE) | POSIX(EXECUTE), false};
static const struct want MOVE_FOLDER = {0, POSIX(WRITE), false};
static const struct want READ_NAMED = {NFS4(READ_NAMED_ATTRS), POSIX(READ), false};
static const struct want WRITE_NAMED = {NFS4(WRITE_NAMED_ATTRS), POSIX(WRITE), false};
static const struct want READ_LIST = {NFS4(READ_ACL), 0, false};
static const struct want CHANGE_LIST = {NFS4(WRITE_ACL), 0, true};
static const struct want CHANGE_TIMES = {NFS4(WRITE_ATTRIBUTES), 0, true};
static const struct want CHANGE_OWNER = {NFS4(WRITE_OWNER), 0, true};
#undef NFS4
#undef POSIX

/* Whether the folder's own POSIX lists decide, and not NFSv4 ones; and the domain of names in lists, or NULL. */
extern int by_posix;
extern char *domain;

/* The path by which this process reaches what a descriptor is of, and nobody else can put something else in its place. */
struct path {
    char at[32];
};
struct path path_of(int fd);
int stat_of(int fd, struct stat *st);

/* 0, or why a call of the system failed. */
static inline int errno_of(long result) { return result < 0 ? errno : 0; }

/* 0 if all that is wanted is granted, else EACCES or EPERM. */
int may(const struct who *who, int fd, struct want want);

/* The same of deleting, renaming or replacing what is in a folder. */
int may_delete(const struct who *who, int folder, int fd);

/* Gives what was made in a folder its owner and group, and the list and mode that it gets there. */
int dress(const struct who *who, int folder, int fd, mode_t mode);

/* Changes of a mode, alone or beside a change that was granted, and of an owner and a group, where -1 leaves it. */
int change_mode(const struct who *who, int fd, mode_t mode, bool is_beside);
int change_owner(const struct who *who, int fd, uid_t uid, gid_t gid);

/* An NFSv4 list as its bytes. Nobody is asked whether they may. */
int get_list(int fd, uint8_t *xdr, size_t room, size_t *length);
int set_list(int fd, const uint8_t *xdr, size_t length);
int drop_list(int fd);

/* The entries of a list in bytes, with the id of each name. */
int with_ids(const uint8_t *xdr, size_t length, struct meardwyn_ace aces[MEARDWYN_MOST_ACES], size_t *count);
#endif
