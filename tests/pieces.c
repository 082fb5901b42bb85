/* Preloaded into a program: each read and each write moves one byte at most. */
#include <sys/syscall.h>
#include <unistd.h>

ssize_t read(int stream, void *into, size_t room) {
  return syscall(SYS_read, stream, into, room < 1 ? room : 1);
}

ssize_t write(int stream, const void *from, size_t size) {
  return syscall(SYS_write, stream, from, size < 1 ? size : 1);
}
