/*
 * Lets nfs4_getfacl and nfs4_setfacl work on any file system that has attributes of users. Preloaded into them by
 * tests/try-forms, it turns the name of the attribute by which a client of an NFSv4 server shows a list, system.nfs4_acl,
 * into user.nfs4_acl.
 */
#define _GNU_SOURCE
#include <string.h>
#include <sys/syscall.h>
#include <sys/types.h>
#include <sys/xattr.h>
#include <unistd.h>

static const char *turned(const char *name)
{
    return strcmp(name, "system.nfs4_acl") ? name : "user.nfs4_acl";
}

ssize_t getxattr(const char *path, const char *name, void *value, size_t size)
{
    return syscall(SYS_getxattr, path, turned(name), value, size);
}

ssize_t lgetxattr(const char *path, const char *name, void *value, size_t size)
{
    return syscall(SYS_lgetxattr, path, turned(name), value, size);
}

int setxattr(const char *path, const char *name, const void *value, size_t size, int how)
{
    return syscall(SYS_setxattr, path, turned(name), value, size, how);
}

int lsetxattr(const char *path, const char *name, const void *value, size_t size, int how)
{
    return syscall(SYS_lsetxattr, path, turned(name), value, size, how);
}

int removexattr(const char *path, const char *name)
{
    return syscall(SYS_removexattr, path, turned(name));
}

int lremovexattr(const char *path, const char *name)
{
    return syscall(SYS_lremovexattr, path, turned(name));
}
