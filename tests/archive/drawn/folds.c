/* A folder that folds case, by FUSE: folds FOLDER POINT shows FOLDER at POINT, where A.TIF and a.tif are one name, until
   it is unmounted. What stands in FOLDER has the names in lower case (ASCII); attributes, modes, owners, times and hard links are its own.
   Nothing is cached by names, since the kernel would take two of them for two files. */

#define FUSE_USE_VERSION 31
#define _GNU_SOURCE
#include <ctype.h>
#include <dirent.h>
#include <errno.h>
#include <fcntl.h>
#include <fuse3/fuse.h>
#include <limits.h>
#include <stdint.h>
#include <stdio.h>
#include <string.h>
#include <sys/stat.h>
#include <sys/statvfs.h>
#include <sys/xattr.h>
#include <unistd.h>

static const char *folder;

struct place {
    char name[PATH_MAX];
};

/* Where a name leads to. */
static struct place at(const char *path) {
    struct place place;
    size_t start = (size_t)snprintf(place.name, sizeof place.name, "%s%s", folder, path);
    if (start >= sizeof place.name) place.name[0] = 0;
    for (char *letter = place.name + (place.name[0] ? strlen(folder) : 0); *letter; letter++)
        *letter = (char)tolower((unsigned char)*letter);
    return place;
}

static int told(int result) { return result < 0 ? -errno : 0; }

static int f_getattr(const char *path, struct stat *out, struct fuse_file_info *info) {
    return told(info ? fstat((int)info->fh, out) : lstat(at(path).name, out));
}

static int f_readlink(const char *path, char *out, size_t size) {
    ssize_t length = readlink(at(path).name, out, size - 1);
    if (length >= 0) out[length] = 0;
    return told((int)length);
}

static int f_mknod(const char *path, mode_t mode, dev_t device) { return told(mknod(at(path).name, mode, device)); }
static int f_mkdir(const char *path, mode_t mode) { return told(mkdir(at(path).name, mode)); }
static int f_unlink(const char *path) { return told(unlink(at(path).name)); }
static int f_rmdir(const char *path) { return told(rmdir(at(path).name)); }
static int f_symlink(const char *to, const char *path) { return told(symlink(to, at(path).name)); }
static int f_link(const char *from, const char *to) { return told(link(at(from).name, at(to).name)); }

static int f_rename(const char *from, const char *to, unsigned int flags) {
    return told(renameat2(AT_FDCWD, at(from).name, AT_FDCWD, at(to).name, flags));
}

static int f_chmod(const char *path, mode_t mode, struct fuse_file_info *info) {
    return told(info ? fchmod((int)info->fh, mode) : chmod(at(path).name, mode));
}

static int f_chown(const char *path, uid_t user, gid_t group, struct fuse_file_info *info) {
    return told(info ? fchown((int)info->fh, user, group) : lchown(at(path).name, user, group));
}

static int f_truncate(const char *path, off_t size, struct fuse_file_info *info) {
    return told(info ? ftruncate((int)info->fh, size) : truncate(at(path).name, size));
}

static int f_utimens(const char *path, const struct timespec times[2], struct fuse_file_info *info) {
    return told(info ? futimens((int)info->fh, times) : utimensat(AT_FDCWD, at(path).name, times, AT_SYMLINK_NOFOLLOW));
}

static int opened(int file, struct fuse_file_info *info) {
    if (file >= 0) info->fh = (uint64_t)file;
    return told(file);
}

static int f_open(const char *path, struct fuse_file_info *info) {
    return opened(open(at(path).name, info->flags & ~O_NOFOLLOW), info);
}

static int f_create(const char *path, mode_t mode, struct fuse_file_info *info) {
    return opened(open(at(path).name, info->flags | O_CREAT, mode), info);
}

static int f_read(const char *path, char *out, size_t size, off_t from, struct fuse_file_info *info) {
    ssize_t count = pread((int)info->fh, out, size, from);
    (void)path;
    return count < 0 ? -errno : (int)count;
}

static int f_write(const char *path, const char *data, size_t size, off_t from, struct fuse_file_info *info) {
    ssize_t count = pwrite((int)info->fh, data, size, from);
    (void)path;
    return count < 0 ? -errno : (int)count;
}

static int f_release(const char *path, struct fuse_file_info *info) {
    (void)path;
    return told(close((int)info->fh));
}

static int f_fsync(const char *path, int data_only, struct fuse_file_info *info) {
    (void)path, (void)data_only;
    return told(fsync((int)info->fh));
}

static int f_statfs(const char *path, struct statvfs *out) { return told(statvfs(at(path).name, out)); }

static int f_readdir(const char *path, void *out, fuse_fill_dir_t fill, off_t from, struct fuse_file_info *info,
                     enum fuse_readdir_flags flags) {
    DIR *list = opendir(at(path).name);
    struct dirent *entry;
    (void)from, (void)info, (void)flags;
    if (!list) return -errno;
    while ((entry = readdir(list))) fill(out, entry->d_name, NULL, 0, 0);
    closedir(list);
    return 0;
}

static int f_setxattr(const char *path, const char *name, const char *value, size_t size, int flags) {
    return told(lsetxattr(at(path).name, name, value, size, flags));
}

static int f_getxattr(const char *path, const char *name, char *out, size_t size) {
    ssize_t length = lgetxattr(at(path).name, name, out, size);
    return length < 0 ? -errno : (int)length;
}

static int f_listxattr(const char *path, char *out, size_t size) {
    ssize_t length = llistxattr(at(path).name, out, size);
    return length < 0 ? -errno : (int)length;
}

static int f_removexattr(const char *path, const char *name) { return told(lremovexattr(at(path).name, name)); }

static void *f_init(struct fuse_conn_info *connection, struct fuse_config *config) {
    (void)connection;
    config->use_ino = 1;
    config->hard_remove = 1;
    config->entry_timeout = config->negative_timeout = config->attr_timeout = 0;
    return NULL;
}

static const struct fuse_operations calls = {
    .init = f_init, .getattr = f_getattr, .readlink = f_readlink, .mknod = f_mknod, .mkdir = f_mkdir,
    .unlink = f_unlink, .rmdir = f_rmdir, .symlink = f_symlink, .link = f_link, .rename = f_rename, .chmod = f_chmod,
    .chown = f_chown, .truncate = f_truncate, .utimens = f_utimens, .open = f_open, .create = f_create, .read = f_read,
    .write = f_write, .release = f_release, .fsync = f_fsync, .statfs = f_statfs, .readdir = f_readdir,
    .setxattr = f_setxattr, .getxattr = f_getxattr, .listxattr = f_listxattr, .removexattr = f_removexattr,
};

int main(int count, char **words) {
    char *given[] = {words[0], "-s", "-f", "-o", "default_permissions,allow_other", count == 3 ? words[2] : NULL, NULL};
    if (count != 3) return 2;
    folder = words[1];
    umask(0);
    return fuse_main(6, given, &calls, NULL);
}
