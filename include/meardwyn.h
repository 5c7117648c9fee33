/*
 * Meardwyn: POSIX and NFSv4 access control lists, decided, checked, changed and translated by proved code.
 *
 * man 3 meardwyn has an overview, the order of calls in a server, and whole examples.
 *
 * Proved. The 37 exported calls return and write what their contracts in crates/acl_c/src say, for all bytes, entries and numbers that
 * a caller hands in. The 8 inline functions (those that end in _for, and meardwyn_strerror) are C, a few lines each, and tested.
 *
 * Threads. No call keeps anything. Any calls may run at the same time in any threads, as long as no buffer that one call writes is read
 * or written by another. Don't call from a signal handler, or in the child that a process with threads forked.
 *
 * Pointers. A pointer that goes with a length is aligned, and to as many elements as the length says; with length 0 it may be anything,
 * NULL included. Pointers without a length must not be NULL: file, folder, user, making, needed, error, mode, allowed, decided, who,
 * difference, place and ace are read or written in any case. A buffer for output overlaps nothing else that is handed in, so a list can't be changed
 * in place. Lengths are below 2^63 bytes. No proof can check any of this: the caller must.
 *
 * Memory. Some calls never take memory. Others take none if lists are short: no POSIX list has more than 8 entries (68 bytes), and no
 * NFSv4 list, neither one that goes in nor one that comes out, more than 16. Texts may take memory for any list.
 *   never:      the checks (posix_check, posix_check_linux, nfs4_check, nfs4_allowed, nfs4_decide, nfs4_grants, the three may_delete),
 *               nfs4_valid, nfs4_mode, nfs4_compare, nfs4_from_xdr, nfs4_to_xdr, the three nfs4_xdr_, both of_mode, error_name, errno,
 *               version
 *   if long:    posix_valid, _mode, _canonical, _chmod, _create, _compare, _to_nfs4, _default_to_nfs4; nfs4_chmod, _inherit, _create
 *   any list:   the four calls on texts
 * A call that takes memory calls malloc or realloc, frees all of it before it returns, and returns MEARDWYN_NO_MEMORY if it gets none.
 * malloc, realloc and free are those of one allocator, which aligns as C demands.
 *
 * Limits. Calls that only decide (the checks, nfs4_valid, nfs4_mode, nfs4_compare) and those on XDR take any number of NFSv4 entries.
 * Those that make a list or a text take 128 NFSv4 entries at the most. A POSIX list has 64 at the most.
 *
 * Users. gids are all groups of the user, the primary one too, in any order. One may come twice, and 0xffffffff is ignored. uid 0 has no
 * special right here, and an owner none but what the list grants: READ_ACL, WRITE_ACL and READ_ATTRIBUTES too. Only the file's own list
 * counts: not its parent directories, nor how its file system is mounted.
 */
#ifndef MEARDWYN_H
#define MEARDWYN_H

#include <stdbool.h>
#include <stddef.h>
#include <stdint.h>

#ifdef __cplusplus
extern "C" {
#endif

/* Compilers warn if what a call returns is ignored. */
#if defined(__GNUC__)
#define MEARDWYN_TOLD __attribute__((warn_unused_result))
#else
#define MEARDWYN_TOLD
#endif

/* The largest sizes.
   MOST_ACES: the most entries of an NFSv4 list that chmod, inherit, create and to_text accept, and the most that any call but
   meardwyn_nfs4_from_xdr writes.
   MOST_XATTR: the most bytes of a POSIX list.
   MOST_XDR: the most bytes of MOST_ACES entries in XDR.
   MOST_NAME: the most bytes of an error's name. */
enum { MEARDWYN_MOST_ACES = 128, MEARDWYN_MOST_XATTR = 516, MEARDWYN_MOST_XDR = 3588, MEARDWYN_MOST_NAME = 15 };

/* The most bytes of so many entries in XDR. */
#define MEARDWYN_XDR_SIZE(aces_len) (4 + 28 * (size_t)(aces_len))

/* What calls return: 0 or more is the answer, below 0 is an error, and then there is no answer. New errors may come: treat any number
   below 0 as one. An error is true in C: compare an answer with 1, or use a call that returns a bool, which is false with an error.

   The first fault is reported. Arguments come before the list. In the bytes of a POSIX list the version comes before their number, and
   that before the number of entries; then each entry in its order; then the list as a whole: MISSING before REPEATED before NO_MASK.
   Among NFSv4 entries the first at fault is reported.

   Which errors a call may return:
     bytes of a POSIX list      -3 to -12
     NFSv4 entries              -3, -6, -8, -13 to -17; calls that only decide never -17, and never -6 but meardwyn_nfs4_compare
                                (over 2,000,000,000 entries of one list)
     XDR that is read           -4, -13 to -15, and -19 for any who that is none of the three and no id (nfs4_xdr_next: and no name)
     an entry in XDR            -2, -8, -13 to -16, and -19 for a name that is none
     text of a POSIX list       -6, -18 to -20
     text of an NFSv4 list      -6, -17 to -19
     and with an output         -2; a text of NFSv4 entries also -21
     and those that take memory -1

   After an error: a call with out, out_len and needed leaves *needed and the buffer as they were, but with MEARDWYN_NO_ROOM it writes
   *needed (and meardwyn_nfs4_create also *mode). meardwyn_nfs4_decide denies the whole request. *allowed, *who, *difference and *mode
   stay as they were. A call that returns a bool writes *error in any case, 0 if there is none. */
enum meardwyn_error {
    MEARDWYN_NO_MEMORY = -1,     /* malloc gave no memory; this says nothing of the list */
    MEARDWYN_NO_ROOM = -2,       /* the buffer is too small: *needed has the size, and the buffer is as it was */
    MEARDWYN_BAD_ARGUMENT = -3,  /* the owner, the group or the uid is 0xffffffff; a mode is above 0777 (mask it: mode & 0777); a request
                                    of a POSIX list is above 7, or one of an NFSv4 list has a bit of retention (0x200, 0x400); a kind
                                    or how is none of its enum */
    MEARDWYN_BAD_SIZE = -4,      /* the bytes are not a version and whole entries; XDR ends too early or goes on */
    MEARDWYN_BAD_VERSION = -5,   /* the version is not 2 */
    MEARDWYN_TOO_MANY = -6,      /* more than 64 POSIX entries, or 128 NFSv4 entries of a list that is changed, or that would be made */
    MEARDWYN_BAD_TAG = -7,       /* an entry's tag is none of the six */
    MEARDWYN_BAD_ID = -8,        /* an entry names a user or a group by 0xffffffff */
    MEARDWYN_BAD_PERMS = -9,     /* an entry has more than permissions to read, write and execute */
    MEARDWYN_MISSING = -10,      /* the entry for the owner, the file's group or the others is missing */
    MEARDWYN_REPEATED = -11,     /* an entry comes twice */
    MEARDWYN_NO_MASK = -12,      /* a user or a group is named, and there is no mask */
    MEARDWYN_BAD_TYPE = -13,     /* the type of an NFSv4 entry is none of the four */
    MEARDWYN_BAD_FLAGS = -14,    /* it has a flag without a name */
    MEARDWYN_BAD_MASK = -15,     /* its mask has a bit without a name (a request may have one: no entry allows it, so it is denied) */
    MEARDWYN_BAD_WHO = -16,      /* its special is none of the four */
    MEARDWYN_INHERIT_ONLY = -17, /* it has INHERIT_ONLY without FILE_INHERIT or DIRECTORY_INHERIT, so it takes effect nowhere */
    MEARDWYN_SYNTAX = -18,       /* a piece of a text isn't written as an entry */
    MEARDWYN_UNKNOWN_NAME = -19, /* a text or XDR has a name: replace it by an id first */
    MEARDWYN_INVALID_LIST = -20, /* the entries of a text are no POSIX list: one, or the mask, is missing, or one comes twice */
    MEARDWYN_UNKEPT_BITS = -21   /* an entry has INHERITED or a bit of retention, which texts have no letter for: clear it first */
};

/* The version of the calls, 0x10000. Its upper half is another number once a call changes or goes. That happens with a new minor version
   at the earliest: all 0.1.x keep what is declared here, and may add to it. The shared library is libmeardwyn.so.0 and names its calls
   MEARDWYN_0.1: a program that was linked with another minor version doesn't start. */
uint32_t meardwyn_version(void);

/* The number of errno for an error: ENOMEM for MEARDWYN_NO_MEMORY, ERANGE for MEARDWYN_NO_ROOM, ENOSPC for MEARDWYN_TOO_MANY, EINVAL for
   any other, and 0 for 0 or more. It is positive: FUSE and the kernel want it negative. It suits lists that a client sends. An error of
   a list that the server keeps itself means that the list is damaged: report EIO. */
int32_t meardwyn_errno(int32_t error);

/* Writes the name of an error, as "no-mask", into a buffer, without a byte 0 at the end; *needed is its length, 15 at the most. A number
   that is no error is "unknown". */
MEARDWYN_TOLD
int32_t meardwyn_error_name(int32_t error, char *out, size_t out_len, size_t *needed);

/* An error in words, a constant string. */
static inline const char *meardwyn_strerror(int32_t error)
{
    switch (error) {
    case MEARDWYN_NO_MEMORY: return "out of memory";
    case MEARDWYN_NO_ROOM: return "the buffer is too small";
    case MEARDWYN_BAD_ARGUMENT: return "an id, mode, request, kind or rule is out of range";
    case MEARDWYN_BAD_SIZE: return "the bytes end too early or go on after the list";
    case MEARDWYN_BAD_VERSION: return "the version is not 2";
    case MEARDWYN_TOO_MANY: return "too many entries";
    case MEARDWYN_BAD_TAG: return "unknown tag of an entry";
    case MEARDWYN_BAD_ID: return "an entry names the undefined id";
    case MEARDWYN_BAD_PERMS: return "an entry has an unknown permission";
    case MEARDWYN_MISSING: return "the entry for the owner, the group or the others is missing";
    case MEARDWYN_REPEATED: return "an entry comes twice";
    case MEARDWYN_NO_MASK: return "somebody is named and there is no mask";
    case MEARDWYN_BAD_TYPE: return "unknown type of an entry";
    case MEARDWYN_BAD_FLAGS: return "unknown flag of an entry";
    case MEARDWYN_BAD_MASK: return "unknown bit in an entry's mask";
    case MEARDWYN_BAD_WHO: return "unknown special identifier of an entry";
    case MEARDWYN_INHERIT_ONLY: return "an entry takes effect nowhere";
    case MEARDWYN_SYNTAX: return "a piece of the text is not written as an entry";
    case MEARDWYN_UNKNOWN_NAME: return "a name in place of an id";
    case MEARDWYN_INVALID_LIST: return "the entries of the text are no POSIX list";
    case MEARDWYN_UNKEPT_BITS: return "a text has no letter for a bit of an entry";
    default: return error < 0 ? "unknown error" : "no error";
    }
}

/* Permissions of a request of a POSIX list, and of each of the three digits of a mode. Requests of NFSv4 lists have other numbers, enum
   meardwyn_nfs4_mask. */
enum meardwyn_posix_perms { MEARDWYN_POSIX_READ = 4, MEARDWYN_POSIX_WRITE = 2, MEARDWYN_POSIX_EXECUTE = 1 };

/* Their names before 0.1.0, which 0.2.0 removes. */
#define MEARDWYN_READ MEARDWYN_OLD_NAME("MEARDWYN_READ is deprecated: MEARDWYN_POSIX_READ") MEARDWYN_POSIX_READ
#define MEARDWYN_WRITE MEARDWYN_OLD_NAME("MEARDWYN_WRITE is deprecated: MEARDWYN_POSIX_WRITE") MEARDWYN_POSIX_WRITE
#define MEARDWYN_EXECUTE MEARDWYN_OLD_NAME("MEARDWYN_EXECUTE is deprecated: MEARDWYN_POSIX_EXECUTE") MEARDWYN_POSIX_EXECUTE
#if defined(__GNUC__)
#define MEARDWYN_OLD_NAME(says) MEARDWYN_PRAGMA(GCC warning says)
#define MEARDWYN_PRAGMA(words) _Pragma(#words)
#else
#define MEARDWYN_OLD_NAME(says)
#endif

/* The owner and the group of a file. */
struct meardwyn_file {
    uint32_t owner, group;
};

/* Who asks. The calls that end in _for take it in place of its three parts, so that no number is mistaken for another. */
struct meardwyn_user {
    uint32_t uid;
    const uint32_t *gids;
    size_t gids_len;
};

/*
 * POSIX lists, 1003.1e draft 17, in the binary form of the extended attributes system.posix_acl_access and
 * system.posix_acl_default: what getxattr(2) returns. A file whose list is its mode has no such attribute: meardwyn_posix_of_mode makes
 * its list. To Linux an attribute of 4 bytes says that there is no list; here it is MEARDWYN_MISSING.
 */

/* 1 if the list grants the user all of the request, for a file of this owner and this group; 0 if not. By draft 17. */
MEARDWYN_TOLD
int32_t meardwyn_posix_check(const uint8_t *xattr, size_t xattr_len, uint32_t owner, uint32_t group, uint32_t uid,
                             const uint32_t *gids, size_t gids_len, uint32_t request);

/* The same as Linux decides: use this one to predict the kernel. They differ only if the mask has no permission. Linux then goes by the
   mode that the list shows, and decides about whom the list names by the mode like about anybody else; draft 17 denies them. Linux also
   holds lists of more than 64 entries, and lists that name a user or a group twice: here they are MEARDWYN_TOO_MANY and
   MEARDWYN_REPEATED. To read any of them takes a buffer of 65536 bytes. */
MEARDWYN_TOLD
int32_t meardwyn_posix_check_linux(const uint8_t *xattr, size_t xattr_len, uint32_t owner, uint32_t group, uint32_t uid,
                                   const uint32_t *gids, size_t gids_len, uint32_t request);

/* The two checks as a bool: with an error it is false, and *error has it; else *error is 0. */
MEARDWYN_TOLD
static inline bool meardwyn_posix_grants_for(const uint8_t *xattr, size_t xattr_len, const struct meardwyn_file *file,
                                             const struct meardwyn_user *user, uint32_t request, int32_t *error)
{
    int32_t answer = meardwyn_posix_check(xattr, xattr_len, file->owner, file->group, user->uid, user->gids, user->gids_len, request);
    *error = answer < 0 ? answer : 0;
    return answer == 1;
}
MEARDWYN_TOLD
static inline bool meardwyn_posix_grants_linux_for(const uint8_t *xattr, size_t xattr_len, const struct meardwyn_file *file,
                                                   const struct meardwyn_user *user, uint32_t request, int32_t *error)
{
    int32_t answer =
        meardwyn_posix_check_linux(xattr, xattr_len, file->owner, file->group, user->uid, user->gids, user->gids_len, request);
    *error = answer < 0 ? answer : 0;
    return answer == 1;
}

/* Whether a user may delete a file in a folder with this list, rename it, or replace it, by draft 17 or as Linux decides: the folder's
   list grants writing and executing at once; and if the folder is sticky, the user owns it or the file. The file's own list and group
   don't count. The folders above aren't evaluated. To rename also takes what it takes to create in the target folder. With an error it
   is false, and *error has it; else *error is 0. */
MEARDWYN_TOLD
bool meardwyn_posix_may_delete(const uint8_t *folder_xattr, size_t folder_xattr_len, const struct meardwyn_file *folder,
                               bool sticky, const struct meardwyn_file *file, uint32_t uid, const uint32_t *gids, size_t gids_len,
                               int32_t *error);
MEARDWYN_TOLD
bool meardwyn_posix_may_delete_linux(const uint8_t *folder_xattr, size_t folder_xattr_len, const struct meardwyn_file *folder,
                                     bool sticky, const struct meardwyn_file *file, uint32_t uid, const uint32_t *gids,
                                     size_t gids_len, int32_t *error);
MEARDWYN_TOLD
static inline bool meardwyn_posix_may_delete_for(const uint8_t *folder_xattr, size_t folder_xattr_len,
                                                 const struct meardwyn_file *folder, bool sticky, const struct meardwyn_file *file,
                                                 const struct meardwyn_user *user, int32_t *error)
{
    return meardwyn_posix_may_delete(folder_xattr, folder_xattr_len, folder, sticky, file, user->uid, user->gids, user->gids_len, error);
}
MEARDWYN_TOLD
static inline bool meardwyn_posix_may_delete_linux_for(const uint8_t *folder_xattr, size_t folder_xattr_len,
                                                       const struct meardwyn_file *folder, bool sticky,
                                                       const struct meardwyn_file *file, const struct meardwyn_user *user,
                                                       int32_t *error)
{
    return meardwyn_posix_may_delete_linux(folder_xattr, folder_xattr_len, folder, sticky, file, user->uid, user->gids, user->gids_len,
                                           error);
}

/* 0 if the bytes are a list, in whatever order. The ids of entries that name nobody are ignored. */
MEARDWYN_TOLD
int32_t meardwyn_posix_valid(const uint8_t *xattr, size_t xattr_len);

/* The mode of a file with the list, 0 to 0777. */
MEARDWYN_TOLD
int32_t meardwyn_posix_mode(const uint8_t *xattr, size_t xattr_len);

/*
 * The following write a list or a text to the start of a buffer, and return 0. *needed is its size in bytes, also with
 * MEARDWYN_NO_ROOM. A list has 516 bytes at the most; for the size of a text, call with out_len 0 first. A list is written in canonical
 * order, the order that Linux accepts.
 */

/* The list itself. */
MEARDWYN_TOLD
int32_t meardwyn_posix_canonical(const uint8_t *xattr, size_t xattr_len, uint8_t *out, size_t out_len, size_t *needed);

/* The list with its mode changed, as by chmod(2). Pass st_mode & 0777. */
MEARDWYN_TOLD
int32_t meardwyn_posix_chmod(const uint8_t *xattr, size_t xattr_len, uint32_t mode, uint8_t *out, size_t out_len, size_t *needed);

/* The list of a mode, with three entries. */
MEARDWYN_TOLD
int32_t meardwyn_posix_of_mode(uint32_t mode, uint8_t *out, size_t out_len, size_t *needed);

/* The list of a new file with this mode in a directory with this default list. The umask doesn't count, as in Linux. */
MEARDWYN_TOLD
int32_t meardwyn_posix_create(const uint8_t *default_xattr, size_t default_xattr_len, uint32_t mode, uint8_t *out, size_t out_len,
                              size_t *needed);

/* The list of a text as setfacl(1) reads it, with ids in decimal: "u::rw-,u:1000:r--,g::r--,m::r--,o::---". */
MEARDWYN_TOLD
int32_t meardwyn_posix_from_text(const char *text, size_t text_len, uint8_t *out, size_t out_len, size_t *needed);

/* The list as such a text, without a byte 0 at the end. */
MEARDWYN_TOLD
int32_t meardwyn_posix_to_text(const uint8_t *xattr, size_t xattr_len, char *out, size_t out_len, size_t *needed);

/* A user and up to two groups; 0xffffffff is no group. If two lists differ for anybody at all, they differ for somebody like this. */
struct meardwyn_asker {
    uint32_t uid, gid, other_gid;
};

/*
 * 0 if two lists, each for a file of its own owner and group, grant a request to the same requesters, of whatever uid and groups, as
 * meardwyn_posix_check decides; 1 if the first alone grants it to *who, who loses it from the first to the second; 2 if the second
 * alone does. With 0, *who is as it was.
 */
MEARDWYN_TOLD
int32_t meardwyn_posix_compare(const uint8_t *first, size_t first_len, uint32_t owner, uint32_t group, const uint8_t *second,
                               size_t second_len, uint32_t other_owner, uint32_t other_group, uint32_t request,
                               struct meardwyn_asker *who);

/*
 * NFSv4 lists, RFC 8881, as arrays of entries, evaluated from the first on.
 *
 * ACE4_INHERITED_ACE, ACE4_WRITE_RETENTION and ACE4_WRITE_RETENTION_HOLD decide nothing here. Calls that only decide ignore them in
 * entries; chmod, inherit, create and XDR keep them; a text has no letters for them, and to_text refuses the list (MEARDWYN_UNKEPT_BITS).
 * A request, or the bits of a comparison, with one of retention (0x200, 0x400) is MEARDWYN_BAD_ARGUMENT: whether a list grants it isn't
 * evaluated here.
 */
enum meardwyn_type { MEARDWYN_ALLOW = 0, MEARDWYN_DENY = 1, MEARDWYN_AUDIT = 2, MEARDWYN_ALARM = 3 };
enum meardwyn_special { MEARDWYN_BY_ID = 0, MEARDWYN_OWNER = 1, MEARDWYN_GROUP = 2, MEARDWYN_EVERYONE = 3,
                        MEARDWYN_BY_NAME = 4 }; /* in meardwyn_nfs4_xdr_next and _put alone; else MEARDWYN_BAD_WHO */

/* The flags of an entry (RFC 8881, 6.2.1.4). */
enum meardwyn_nfs4_flags {
    MEARDWYN_NFS4_FILE_INHERIT = 0x1,
    MEARDWYN_NFS4_DIRECTORY_INHERIT = 0x2,
    MEARDWYN_NFS4_NO_PROPAGATE_INHERIT = 0x4,
    MEARDWYN_NFS4_INHERIT_ONLY = 0x8,
    MEARDWYN_NFS4_SUCCESSFUL_ACCESS = 0x10,
    MEARDWYN_NFS4_FAILED_ACCESS = 0x20,
    MEARDWYN_NFS4_IDENTIFIER_GROUP = 0x40, /* id is a group */
    MEARDWYN_NFS4_INHERITED = 0x80
};

/* The bits of a mask, and of a request of an NFSv4 list (RFC 8881, 6.2.1.3). The first three have other names for folders. */
enum meardwyn_nfs4_mask {
    MEARDWYN_NFS4_READ_DATA = 0x1,
    MEARDWYN_NFS4_LIST_DIRECTORY = 0x1,
    MEARDWYN_NFS4_WRITE_DATA = 0x2,
    MEARDWYN_NFS4_ADD_FILE = 0x2,
    MEARDWYN_NFS4_APPEND_DATA = 0x4,
    MEARDWYN_NFS4_ADD_SUBDIRECTORY = 0x4,
    MEARDWYN_NFS4_READ_NAMED_ATTRS = 0x8,
    MEARDWYN_NFS4_WRITE_NAMED_ATTRS = 0x10,
    MEARDWYN_NFS4_EXECUTE = 0x20,
    MEARDWYN_NFS4_DELETE_CHILD = 0x40,
    MEARDWYN_NFS4_READ_ATTRIBUTES = 0x80,
    MEARDWYN_NFS4_WRITE_ATTRIBUTES = 0x100,
    MEARDWYN_NFS4_WRITE_RETENTION = 0x200,      /* allowed in entries, not in requests */
    MEARDWYN_NFS4_WRITE_RETENTION_HOLD = 0x400, /* allowed in entries, not in requests */
    MEARDWYN_NFS4_DELETE = 0x10000,
    MEARDWYN_NFS4_READ_ACL = 0x20000,
    MEARDWYN_NFS4_WRITE_ACL = 0x40000,
    MEARDWYN_NFS4_WRITE_OWNER = 0x80000,
    MEARDWYN_NFS4_SYNCHRONIZE = 0x100000
};

/* The name of a flag before 0.1.0, which 0.2.0 removes. */
#define MEARDWYN_ID_IS_A_GROUP \
    MEARDWYN_OLD_NAME("MEARDWYN_ID_IS_A_GROUP is deprecated: MEARDWYN_NFS4_IDENTIFIER_GROUP") MEARDWYN_NFS4_IDENTIFIER_GROUP

struct meardwyn_ace {
    uint32_t type;        /* of enum meardwyn_type */
    uint32_t flag;        /* of enum meardwyn_nfs4_flags */
    uint32_t access_mask; /* of enum meardwyn_nfs4_mask */
    uint32_t special;     /* of enum meardwyn_special: OWNER@, GROUP@, EVERYONE@, or the user or group id */
    uint32_t id;          /* if special is 0; else it is ignored, and 0 where a call writes it */
};

/*
 * Checks. They evaluate the entries from the first on, however many there are, until each bit of the request is decided. Audit and alarm
 * entries and those with INHERIT_ONLY decide nothing. An invalid entry (an unknown type, flag, bit or special, or the id 0xffffffff) is an
 * error, since it might decide; but not if the entries before it decide the whole request.
 */

/* 1 if the list grants the user all of the request, a mask, for a file of this owner and this group; 0 if not. */
MEARDWYN_TOLD
int32_t meardwyn_nfs4_check(const struct meardwyn_ace *aces, size_t aces_len, uint32_t owner, uint32_t group, uint32_t uid,
                            const uint32_t *gids, size_t gids_len, uint32_t request);

/* 0, and in *allowed those bits of the request that the list grants, each by itself. They are bits of a mask. NFSv4's ACCESS operation
   numbers its bits otherwise: its 0x2 is ACCESS4_LOOKUP, and here 0x2 is WRITE_DATA. */
MEARDWYN_TOLD
int32_t meardwyn_nfs4_allowed(const struct meardwyn_ace *aces, size_t aces_len, uint32_t owner, uint32_t group, uint32_t uid,
                              const uint32_t *gids, size_t gids_len, uint32_t request, uint32_t *allowed);

/* The bits of a request that a list allows, and those that it denies. No entry decides the others: they aren't granted either. */
struct meardwyn_decided {
    uint32_t allowed, denied;
};

/* 0, and in *decided the bits of the request that the list allows and denies. With an error, *decided denies the whole request. */
MEARDWYN_TOLD
int32_t meardwyn_nfs4_decide(const struct meardwyn_ace *aces, size_t aces_len, const struct meardwyn_file *file, uint32_t uid,
                             const uint32_t *gids, size_t gids_len, uint32_t request, struct meardwyn_decided *decided);

/* Whether the list grants the user all of the request. With an error it is false, and *error has it; else *error is 0. */
MEARDWYN_TOLD
bool meardwyn_nfs4_grants(const struct meardwyn_ace *aces, size_t aces_len, const struct meardwyn_file *file, uint32_t uid,
                          const uint32_t *gids, size_t gids_len, uint32_t request, int32_t *error);

MEARDWYN_TOLD
static inline int32_t meardwyn_nfs4_decide_for(const struct meardwyn_ace *aces, size_t aces_len, const struct meardwyn_file *file,
                                               const struct meardwyn_user *user, uint32_t request,
                                               struct meardwyn_decided *decided)
{
    return meardwyn_nfs4_decide(aces, aces_len, file, user->uid, user->gids, user->gids_len, request, decided);
}
MEARDWYN_TOLD
static inline bool meardwyn_nfs4_grants_for(const struct meardwyn_ace *aces, size_t aces_len, const struct meardwyn_file *file,
                                            const struct meardwyn_user *user, uint32_t request, int32_t *error)
{
    return meardwyn_nfs4_grants(aces, aces_len, file, user->uid, user->gids, user->gids_len, request, error);
}

/* Whether a user may delete a file with these entries in a folder with those, rename it, or replace it (RFC 8881, 6.2.1.3.2):
     1. If the file's list grants DELETE, or the folder's grants DELETE_CHILD: yes, whether the folder is sticky or not.
     2. Otherwise, if either list denies its bit: no.
     3. Otherwise, if the folder's list grants ADD_FILE: yes; in a sticky folder only if the user owns the folder or the file.
     4. Otherwise: no.
   That the user may search the folder and those above it isn't evaluated. To rename also takes ADD_FILE, or ADD_SUBDIRECTORY for a
   folder, in the target folder. With an error it is false, and *error has it, the folder's list first; else *error is 0. */
MEARDWYN_TOLD
bool meardwyn_nfs4_may_delete(const struct meardwyn_ace *folder_aces, size_t folder_aces_len, const struct meardwyn_file *folder,
                              bool sticky, const struct meardwyn_ace *aces, size_t aces_len, const struct meardwyn_file *file,
                              uint32_t uid, const uint32_t *gids, size_t gids_len, int32_t *error);
MEARDWYN_TOLD
static inline bool meardwyn_nfs4_may_delete_for(const struct meardwyn_ace *folder_aces, size_t folder_aces_len,
                                                const struct meardwyn_file *folder, bool sticky, const struct meardwyn_ace *aces,
                                                size_t aces_len, const struct meardwyn_file *file,
                                                const struct meardwyn_user *user, int32_t *error)
{
    return meardwyn_nfs4_may_delete(folder_aces, folder_aces_len, folder, sticky, aces, aces_len, file, user->uid, user->gids,
                                    user->gids_len, error);
}

/* 0 if each entry can be evaluated; there may be any number. An entry with INHERIT_ONLY alone, which takes effect nowhere, is accepted,
   since stores have such. chmod, inherit, create and to_text accept less: no such entry (MEARDWYN_INHERIT_ONLY), and 128 entries at the
   most (MEARDWYN_TOO_MANY). A server that sets modes refuses both where a client sets a list: call meardwyn_nfs4_chmod with the list's
   own mode (meardwyn_nfs4_mode) and out_len 0, and refuse any error but MEARDWYN_NO_ROOM. */
MEARDWYN_TOLD
int32_t meardwyn_nfs4_valid(const struct meardwyn_ace *aces, size_t aces_len);

/* The mode of a file with the list, 0 to 0777: what the list grants OWNER@, GROUP@ and EVERYONE@, each by its own entries and those of
   EVERYONE@. It accepts the entries that valid accepts. */
MEARDWYN_TOLD
int32_t meardwyn_nfs4_mode(const struct meardwyn_ace *aces, size_t aces_len);

/* The following write a list to the start of an array, and return 0. *needed is its number of entries, also with MEARDWYN_NO_ROOM. */

/* How a mode is set. Each way the list then shows the mode. The owner, and everybody whom no entry names, is granted what the mode says.
   Other bits of a mask, audits, and what is inherited stay.
   PROFILE and LEAST grant those whom entries name no more than the mode's group. Set on the same list, both decide each bit alike for
   everybody; they differ in what a later mode gives. Both take from named users' and groups' ALLOW entries the bits that the mode's group
   lacks, for good: after 0600, 0660 doesn't bring them back (a POSIX mask would). PROFILE also adds a DENY of all these bits for each
   name. LEAST adds a DENY only of what the mode gives others and not the group (0604), mostly none. A DENY stays whatever mode is set
   later. So if 0644 is set after 0600, the named get with LEAST what anybody else gets, and with PROFILE nothing.
   KEEP leaves the entries that name users and groups as they are, as aclmode=passthrough of ZFS does. For anybody but the owner the first
   such entry that has a bit decides it, whatever the mode; the mode gives what none of them has. So whom an entry lets read still reads
   after 0600, where RFC 8881, 6.4.1.1, would rather not have it. KEEP leaves nothing of a mode that KEEP set before. */
enum meardwyn_how { MEARDWYN_CHMOD_PROFILE = 0, MEARDWYN_CHMOD_LEAST = 1, MEARDWYN_CHMOD_KEEP = 2 };

/* The list with a mode set: pass st_mode & 0777. MEARDWYN_TOO_MANY also if the result would have over 128 entries: a mode splits each
   inheritable ALLOW and DENY entry in two (KEEP only those of OWNER@, GROUP@ and EVERYONE@), and adds up to 5 entries and, PROFILE and
   LEAST, one for each name. */
MEARDWYN_TOLD
int32_t meardwyn_nfs4_chmod(const struct meardwyn_ace *aces, size_t aces_len, uint32_t mode, uint32_t how,
                            struct meardwyn_ace *out, size_t out_len, size_t *needed);

/* What a new file (is_dir 0) or a new directory (1) inherits, before a mode is set. A file's entries lose the four flags of inheritance.
   A directory's are those of PROFILE's table (docs/PROFILE.md, Inheritance): a FILE_INHERIT entry that doesn't concern the directory
   itself gets INHERIT_ONLY, for example. All other bits stay. MEARDWYN_NFS4_INHERITED is as the folder's entry has it: a server that
   marks inherited entries sets it on each, and then sets the mode:
     meardwyn_nfs4_inherit(folder, folder_len, is_dir, below, MEARDWYN_MOST_ACES, &below_len);
     for (size_t i = 0; i < below_len; i++) below[i].flag |= MEARDWYN_NFS4_INHERITED;
     meardwyn_nfs4_chmod(below, below_len, mode, how, made, MEARDWYN_MOST_ACES, &made_len);
   with meardwyn_nfs4_of_mode(mode & ~umask, ..) in place of chmod if below_len is 0. What meardwyn_nfs4_create writes can't be marked any
   more: it has the mode's entries too. */
MEARDWYN_TOLD
int32_t meardwyn_nfs4_inherit(const struct meardwyn_ace *aces, size_t aces_len, bool is_dir, struct meardwyn_ace *out,
                              size_t out_len, size_t *needed);

/* The list of a mode, with 5 entries at the most. With attributes it has two further ALLOW entries: OWNER@ READ_ATTRIBUTES,
   WRITE_ATTRIBUTES, READ_NAMED_ATTRS, WRITE_NAMED_ATTRS, READ_ACL, WRITE_ACL, WRITE_OWNER and SYNCHRONIZE (tTnNcCoy); EVERYONE@
   READ_ATTRIBUTES, READ_NAMED_ATTRS, READ_ACL and SYNCHRONIZE (tncy).
   ATTENTION: by WRITE_OWNER the owner may give the file away, unless the server forbids it. */
MEARDWYN_TOLD
int32_t meardwyn_nfs4_of_mode(uint32_t mode, bool attributes, struct meardwyn_ace *out, size_t out_len, size_t *needed);

/* What is made in a folder. */
enum meardwyn_kind { MEARDWYN_FILE = 0, MEARDWYN_DIRECTORY = 1 };
struct meardwyn_making {
    uint32_t kind, mode, umask, how; /* kind: of enum meardwyn_kind; mode: 0 to 0777; umask: 0 to 0777, taken from mode only if nothing is
                                        inherited; how: of enum meardwyn_how, how mode is set on what is inherited */
};

/* The list of what is made in a folder with these entries: 0, what it inherits, with the mode set on it; *mode is making's. One inherited
   entry of any type is enough (an audit, or one that only files below a new directory inherit), and the umask then counts for nothing.
   If it inherits nothing: 1, there is no list, *needed is 0, the array is as it was, and *mode is the mode less the umask, which is all
   that it has; meardwyn_nfs4_of_mode makes a list of that. *mode is also written with MEARDWYN_NO_ROOM. */
MEARDWYN_TOLD
int32_t meardwyn_nfs4_create(const struct meardwyn_ace *folder_aces, size_t folder_aces_len, const struct meardwyn_making *making,
                             struct meardwyn_ace *out, size_t out_len, size_t *needed, uint32_t *mode);

/* The entries of XDR: a count, and type, flag, mask and who of each, where who is OWNER@, GROUP@, EVERYONE@ or an id in decimal. This is
   the form of system.nfs4_acl, with numeric ids: what meardwyn_nfs4_to_xdr wrote. A client's bytes have names (bob@example.org), which
   are MEARDWYN_UNKNOWN_NAME: read them by meardwyn_nfs4_xdr_next. The bits of each entry stay, INHERITED and
   retention too, but IDENTIFIER_GROUP on one of the three is cleared, leading zeros of an id are dropped, and padding is ignored. So
   bytes that are written again may differ, and decisions don't. Any number of entries is read, and none is refused that valid accepts;
   into an array of 128, more are MEARDWYN_NO_ROOM. */
MEARDWYN_TOLD
int32_t meardwyn_nfs4_from_xdr(const uint8_t *xdr, size_t xdr_len, struct meardwyn_ace *out, size_t out_len, size_t *needed);

/* Entries as such bytes, which from_xdr reads as the same entries again. */
MEARDWYN_TOLD
int32_t meardwyn_nfs4_to_xdr(const struct meardwyn_ace *aces, size_t aces_len, uint8_t *out, size_t out_len, size_t *needed);

/* Where a list in XDR is read: begin with {0, 0, 0, 0}. */
struct meardwyn_xdr_place {
    size_t at, left;        /* where the next entry begins, and how many are left */
    size_t who_at, who_len; /* where the who of the entry that was read stands, and its length */
};

/* The next entry of XDR, with the name that a client sent: 1 with the entry in *ace, and *place behind it; 0 with *place at the end, if
   all entries were read and nothing stands behind them. With 0 or an error *ace is as it was, with an error *place too.
   An entry is as from_xdr reads it if its who is one of the three or an id in decimal. Else its who is a name: special is
   MEARDWYN_BY_NAME, id is 0, and IDENTIFIER_GROUP says whether it is a group's. The name's bytes are xdr + place->who_at, who_len of
   them, without a byte 0 at the end. Ask your name service, and set special to MEARDWYN_BY_ID and id: until then any other call refuses
   the entry (MEARDWYN_BAD_WHO). What has a byte 0, or nothing but digits, is no name (MEARDWYN_UNKNOWN_NAME), and neither is no byte at
   all. Whether a name is UTF-8 isn't looked at, nor what fills it up to a whole group of four bytes. A name that is longer than what is
   left is MEARDWYN_BAD_SIZE. */
MEARDWYN_TOLD
int32_t meardwyn_nfs4_xdr_next(const uint8_t *xdr, size_t xdr_len, struct meardwyn_xdr_place *place, struct meardwyn_ace *ace);

/* And back: a list in XDR is its number of entries, which xdr_begin writes (4 bytes), and behind it each entry, which xdr_put writes.
   name is of an entry whose special is MEARDWYN_BY_NAME, and is ignored for any other. MEARDWYN_UNKNOWN_NAME if xdr_next wouldn't read it
   as a name, as OWNER@ or 50. xdr_next reads the entry again, with this name. Fill bytes are 0. */
MEARDWYN_TOLD
int32_t meardwyn_nfs4_xdr_begin(uint32_t aces_len, uint8_t *out, size_t out_len, size_t *needed);
MEARDWYN_TOLD
int32_t meardwyn_nfs4_xdr_put(const struct meardwyn_ace *ace, const char *name, size_t name_len, uint8_t *out, size_t out_len,
                              size_t *needed);

/* The list of a text, "A::OWNER@:rwx,A:g:50:r", and a list as such a text, without a byte 0 at the end: type A, D, U or L, flags of
   fdnigSF, who, with ids in decimal, and mask letters of rwaxdDtTnNcCoy, as nfs4_acl(5) has them. to_text returns MEARDWYN_UNKEPT_BITS
   as soon as one entry has MEARDWYN_NFS4_INHERITED or a bit of retention: clear it first. */
MEARDWYN_TOLD
int32_t meardwyn_nfs4_from_text(const char *text, size_t text_len, struct meardwyn_ace *out, size_t out_len, size_t *needed);
MEARDWYN_TOLD
int32_t meardwyn_nfs4_to_text(const struct meardwyn_ace *aces, size_t aces_len, char *out, size_t out_len, size_t *needed);

/* Somebody for whom two lists differ: the bits that only the first grants (lost), and those that only the second does (gained). */
struct meardwyn_difference {
    struct meardwyn_asker who;
    uint32_t lost, gained;
};

/* 0 if two lists, each for a file of its own owner and group, decide each of the bits alike for everybody; 1 if not, and *difference has
   somebody. With 0, *difference is as it was. It evaluates both lists for each pair of their entries: twice as many entries take eight
   times as long. More than 2,000,000,000 entries of one list are MEARDWYN_TOO_MANY. */
MEARDWYN_TOLD
int32_t meardwyn_nfs4_compare(const struct meardwyn_ace *first, size_t first_len, uint32_t owner, uint32_t group,
                              const struct meardwyn_ace *second, size_t second_len, uint32_t other_owner, uint32_t other_group,
                              uint32_t bits, struct meardwyn_difference *difference);

/* A POSIX list as an NFSv4 list that decides each single permission for everybody as meardwyn_posix_check decides it (not as
   meardwyn_posix_check_linux does if the mask is empty). It has 125 entries at the most. They allow only READ_DATA, WRITE_DATA,
   APPEND_DATA and EXECUTE: any other bit, READ_ATTRIBUTES and READ_ACL too, is denied, to the owner as well. */
MEARDWYN_TOLD
int32_t meardwyn_posix_to_nfs4(const uint8_t *xattr, size_t xattr_len, struct meardwyn_ace *out, size_t out_len, size_t *needed);

/* A default list as one that takes effect only on what is made below: each entry has FILE_INHERIT, DIRECTORY_INHERIT and INHERIT_ONLY. */
MEARDWYN_TOLD
int32_t meardwyn_posix_default_to_nfs4(const uint8_t *xattr, size_t xattr_len, struct meardwyn_ace *out, size_t out_len,
                                       size_t *needed);

#ifdef __cplusplus
}
#endif
#endif
