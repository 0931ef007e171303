/* The names of Linux for files larger than 2 GiB, for programs that ask for them. There are no such files here. */
#ifndef DTHREADS_LARGE_FILES_H
#define DTHREADS_LARGE_FILES_H

#if defined(_LARGEFILE64_SOURCE) || (defined(_GNU_SOURCE) && !defined(__cplusplus))
#define off64_t off_t
#define ino64_t ino_t
#define blkcnt64_t blkcnt_t
#define creat64 creat
#define dirent64 dirent
#define fallocate64 fallocate
#define fgetpos64 fgetpos
#define fopen64 fopen
#define freopen64 freopen
#define fseeko64 fseeko
#define fsetpos64 fsetpos
#define fstat64 fstat
#define fstatat64 fstatat
#define fstatvfs64 fstatvfs
#define ftello64 ftello
#define ftruncate64 ftruncate
#define lseek64 lseek
#define lstat64 lstat
#define mkstemp64 mkstemp
#define mmap64 mmap
#define open64 open
#define openat64 openat
#define posix_fadvise64 posix_fadvise
#define posix_fallocate64 posix_fallocate
#define pread64 pread
#define pwrite64 pwrite
#define preadv64 preadv
#define pwritev64 pwritev
#define readdir64 readdir
#define scandir64 scandir
#define sendfile64 sendfile
#define stat64 stat
#define statvfs64 statvfs
#define tmpfile64 tmpfile
#define truncate64 truncate
#endif

#endif
