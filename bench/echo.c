/* echo: sends each datagram back as it came. It is the least that a server of datagrams in one thread does.
 *
 *   echo PORT
 *
 * It listens at 127.0.0.1, and ends with the process that started it. The status is 1 where a call failed, 64 for wrong usage.
 */
#define _GNU_SOURCE
#include <arpa/inet.h>
#include <errno.h>
#include <poll.h>
#include <signal.h>
#include <stdio.h>
#include <stdlib.h>
#include <sys/prctl.h>
#include <sys/socket.h>

enum { LARGEST = 65535 };

static void fail(const char *what) {
  perror(what);
  exit(1);
}

/* Sends back all that waits. */
static void serve(int socket) {
  static unsigned char bytes[LARGEST];
  for (;;) {
    struct sockaddr_in from;
    socklen_t size = sizeof from;
    ssize_t length = recvfrom(socket, bytes, sizeof bytes, MSG_DONTWAIT, (struct sockaddr *)&from, &size);
    if (length < 0) {
      if (errno == EAGAIN || errno == EWOULDBLOCK || errno == EINTR)
        return;
      fail("echo: recvfrom");
    }
    /* What the socket does not take now is dropped, as a server of datagrams may. */
    (void)sendto(socket, bytes, (size_t)length, MSG_DONTWAIT, (struct sockaddr *)&from, size);
  }
}

int main(int count, char **words) {
  char *end;
  long port = count == 2 ? strtol(words[1], &end, 10) : 0;
  if (port < 1 || port > 65535 || *end) {
    fprintf(stderr, "usage: echo PORT\n");
    return 64;
  }
  if (prctl(PR_SET_PDEATHSIG, SIGKILL))
    fail("echo: prctl");
  int listening = socket(AF_INET, SOCK_DGRAM, 0);
  if (listening < 0)
    fail("echo: socket");
  struct sockaddr_in address = {.sin_family = AF_INET, .sin_port = htons((unsigned short)port)};
  address.sin_addr.s_addr = htonl(INADDR_LOOPBACK);
  if (bind(listening, (struct sockaddr *)&address, sizeof address))
    fail("echo: bind");
  struct pollfd waited = {.fd = listening, .events = POLLIN};
  for (;;) {
    if (poll(&waited, 1, -1) < 0 && errno != EINTR)
      fail("echo: poll");
    serve(listening);
  }
}
