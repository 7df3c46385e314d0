/* plant: for LD_PRELOAD under slpda: one fault in a thousand answers, or in a thousand times that lines are printed, so that hostile/try can be
 * seen to notice it. PLANT names it:
 *   lost      a datagram is not sent, and said to be
 *   late      it is sent 100 milliseconds later
 *   turned    a bit of its last byte is another
 *   torn      a line feed stands within the first line
 *   left-out  the first line is left out */
#define _GNU_SOURCE
#include <stdlib.h>
#include <string.h>
#include <sys/socket.h>
#include <sys/syscall.h>
#include <unistd.h>

enum { EACH = 1000, LATE = 100000 };
static const char *plant;
static long sent, written;

__attribute__((constructor)) static void begin(void) { plant = getenv("PLANT"); }

/* Whether this is the one of a thousand at which a plant acts. */
static int acts(const char *name, long *count) {
  return plant && !strcmp(plant, name) && __atomic_add_fetch(count, 1, __ATOMIC_RELAXED) % EACH == 0;
}

ssize_t sendto(int s, const void *bytes, size_t length, int flags, const struct sockaddr *to, socklen_t size) {
  char turned[65536];
  if (to && acts("lost", &sent)) return length;
  if (to && acts("late", &sent)) usleep(LATE);
  if (to && length && length <= sizeof turned && acts("turned", &sent)) {
    memcpy(turned, bytes, length);
    turned[length - 1] ^= 1;
    bytes = turned;
  }
  return syscall(SYS_sendto, s, bytes, length, flags, to, size);
}

ssize_t write(int file, const void *bytes, size_t length) {
  const char *end = file == 1 && length && *(const char *)bytes == '#' ? memchr(bytes, '\n', length) : 0;
  size_t first = 0;
  if (end && acts("torn", &written)) {
    first = (end - (const char *)bytes) / 2;
    syscall(SYS_write, file, bytes, first);
    syscall(SYS_write, file, "\n", 1);
  }
  if (end && acts("left-out", &written)) first = end + 1 - (const char *)bytes;
  ssize_t rest = first < length ? syscall(SYS_write, file, (const char *)bytes + first, length - first) : 0;
  return rest < 0 ? rest : rest + (ssize_t)first;
}
