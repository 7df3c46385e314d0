/* load: keeps a server of SLP messages busy, and says how many replies a second it sends.
 *
 *   load udp ADDRESS PORT SECONDS SOCKETS FLIGHT FILE..
 *   load stream ADDRESS PORT SECONDS SOCKETS FLIGHT EACH FILE..
 *
 * Each socket keeps FLIGHT requests under way: it sends the next one when a reply comes. The requests are the files, in turn,
 * each with an XID of its own, by which its reply is known. A datagram without a reply after a tenth of a second is lost, and
 * its place is free. A stream is closed after EACH replies, and another is opened; where EACH is 0 it stays.
 *
 * It prints one line of words NAME=NUMBER: requests, replies, lost (datagrams), connections (streams that were closed after
 * EACH replies), rate (replies a second), bytes (of a reply, on the average), and p50 and p99, the microseconds from request to
 * reply that half and 99 of 100 replies take at most.
 *
 * The status is 1 where a call failed or a stream was closed by the server, 64 for wrong usage. */
#define _GNU_SOURCE
#include <arpa/inet.h>
#include <errno.h>
#include <netinet/tcp.h>
#include <poll.h>
#include <stdarg.h>
#include <stdbool.h>
#include <stdint.h>
#include <stdio.h>
#include <stdlib.h>
#include <string.h>
#include <sys/socket.h>
#include <time.h>
#include <unistd.h>

enum {
  LARGEST = 65535, /* the bytes of a message */
  HEADER = 14,     /* the bytes of a header without its language */
  LENGTH_AT = 2,   /* where the three bytes of the length stand */
  XID_AT = 10,     /* where the two bytes of the XID stand */
  XIDS = 65536,    /* how many XIDs there are */
  MOST_FLIGHT = 4096,
  MOST_SOCKETS = 256,
  SLOWEST = 1000000, /* microseconds; longer waits are counted as this one */
  TURN = 10          /* milliseconds that one wait takes at most */
};

static const double PATIENCE = 0.1; /* seconds, after which a datagram is lost */

/* A request as it stands in its file. */
struct request {
  unsigned char *bytes;
  size_t length;
};

/* The requests of one socket that are under way, by their XIDs. */
struct flight {
  double *sent; /* of each XID when it was sent, 0 where it is not under way */
  unsigned count;
  uint16_t oldest; /* none before this one is under way */
  uint16_t next;
};

/* A stream, with what is not sent yet of its last request, and what has come of its next reply. */
struct stream {
  int socket;
  struct flight flight;
  unsigned long sent, answered;
  unsigned char *outgoing, *incoming;
  size_t begins, ends; /* of what is not sent yet */
  size_t come;
};

static struct sockaddr_in server;
static struct request *requests;
static size_t request_count, request_next;
static unsigned long sent_count, reply_count, lost_count, connection_count;
static double reply_bytes;
static unsigned long *waits; /* how many replies took so many microseconds */

static void fail(const char *format, ...) {
  va_list words;
  va_start(words, format);
  fputs("load: ", stderr);
  vfprintf(stderr, format, words);
  fputc('\n', stderr);
  va_end(words);
  exit(1);
}

static void fail_at(const char *call) { fail("%s: %s", call, strerror(errno)); }

static void *taken(size_t count, size_t size) {
  void *memory = calloc(count, size);
  if (!memory)
    fail("no memory");
  return memory;
}

static double now(void) {
  struct timespec time;
  clock_gettime(CLOCK_MONOTONIC, &time);
  return (double)time.tv_sec + (double)time.tv_nsec * 1e-9;
}

static bool is_blocked(void) { return errno == EAGAIN || errno == EWOULDBLOCK || errno == EINTR; }

static unsigned xid_of(const unsigned char *message) { return (unsigned)message[XID_AT] << 8 | message[XID_AT + 1]; }

static size_t length_of(const unsigned char *message) {
  return (size_t)message[LENGTH_AT] << 16 | (size_t)message[LENGTH_AT + 1] << 8 | message[LENGTH_AT + 2];
}

/* The next request, with this XID. */
static struct request *request_with(uint16_t xid) {
  struct request *request = &requests[request_next];
  request_next = (request_next + 1) % request_count;
  request->bytes[XID_AT] = (unsigned char)(xid >> 8);
  request->bytes[XID_AT + 1] = (unsigned char)xid;
  return request;
}

static void depart(struct flight *flight) {
  flight->sent[flight->next++] = now();
  flight->count++;
  sent_count++;
}

/* A reply has come. One to a request that is not under way any more counts for nothing. */
static bool arrive(struct flight *flight, unsigned xid, size_t length) {
  if (flight->sent[xid] == 0)
    return false;
  double wait = (now() - flight->sent[xid]) * 1e6;
  waits[wait < SLOWEST ? (size_t)wait : SLOWEST]++;
  flight->sent[xid] = 0;
  flight->count--;
  reply_count++;
  reply_bytes += (double)length;
  return true;
}

/* Gives up the requests that have been under way for too long. */
static void give_up(struct flight *flight, double moment) {
  while (flight->oldest != flight->next) {
    double sent = flight->sent[flight->oldest];
    if (sent != 0 && moment - sent < PATIENCE)
      return;
    if (sent != 0) {
      flight->sent[flight->oldest] = 0;
      flight->count--;
      lost_count++;
    }
    flight->oldest++;
  }
}

/* Keeps the server busy with datagrams until the moment `end`. */
static void load_datagrams(double end, unsigned sockets, unsigned most) {
  struct pollfd *polled = taken(sockets, sizeof *polled);
  struct flight *flights = taken(sockets, sizeof *flights);
  unsigned char *reply = taken(LARGEST, 1);
  for (unsigned i = 0; i < sockets; i++) {
    polled[i].fd = socket(AF_INET, SOCK_DGRAM, 0);
    polled[i].events = POLLIN;
    if (polled[i].fd < 0)
      fail_at("socket");
    if (connect(polled[i].fd, (struct sockaddr *)&server, sizeof server))
      fail_at("connect");
    flights[i].sent = taken(XIDS, sizeof *flights[i].sent);
  }
  double moment;
  while ((moment = now()) < end) {
    for (unsigned i = 0; i < sockets; i++) {
      give_up(&flights[i], moment);
      while (flights[i].count < most) {
        struct request *request = request_with(flights[i].next);
        if (send(polled[i].fd, request->bytes, request->length, MSG_DONTWAIT) < 0) {
          if (!is_blocked())
            fail_at("send");
          break;
        }
        depart(&flights[i]);
      }
    }
    if (poll(polled, sockets, TURN) < 0 && errno != EINTR)
      fail_at("poll");
    for (unsigned i = 0; i < sockets; i++) {
      while (polled[i].revents) {
        ssize_t length = recv(polled[i].fd, reply, LARGEST, MSG_DONTWAIT);
        if (length < 0) {
          if (!is_blocked())
            fail_at("recv");
          break;
        }
        if (length >= HEADER)
          arrive(&flights[i], xid_of(reply), (size_t)length);
      }
    }
  }
}

/* A new connection. One to this machine comes from one address after the other, since each has no more than so many ports, and
 * a port is not free again for a minute. */
static int connected(void) {
  static unsigned turn;
  int made = socket(AF_INET, SOCK_STREAM, 0), on = 1;
  if (made < 0)
    fail_at("socket");
  if (ntohl(server.sin_addr.s_addr) >> 24 == 127) {
    struct sockaddr_in own = {.sin_family = AF_INET};
    own.sin_addr.s_addr = htonl(0x7f000100 + 1 + turn++ % 200);
    setsockopt(made, IPPROTO_IP, IP_BIND_ADDRESS_NO_PORT, &on, sizeof on);
    if (bind(made, (struct sockaddr *)&own, sizeof own))
      fail_at("bind");
  }
  if (connect(made, (struct sockaddr *)&server, sizeof server))
    fail_at("connect");
  if (setsockopt(made, IPPROTO_TCP, TCP_NODELAY, &on, sizeof on))
    fail_at("setsockopt");
  return made;
}

/* Sends until enough requests are under way, or the socket takes no more. */
static void send_on(struct stream *stream, unsigned most, unsigned long each) {
  for (;;) {
    if (stream->begins == stream->ends) {
      if (stream->flight.count >= most || (each && stream->sent >= each))
        return;
      struct request *request = request_with(stream->flight.next);
      memcpy(stream->outgoing, request->bytes, request->length);
      stream->begins = 0;
      stream->ends = request->length;
      depart(&stream->flight);
      stream->sent++;
    }
    ssize_t length =
        send(stream->socket, stream->outgoing + stream->begins, stream->ends - stream->begins, MSG_DONTWAIT | MSG_NOSIGNAL);
    if (length < 0) {
      if (!is_blocked())
        fail_at("send");
      return;
    }
    stream->begins += (size_t)length;
  }
}

/* Takes what has come, and each reply that is whole. */
static void receive_on(struct stream *stream) {
  ssize_t length = recv(stream->socket, stream->incoming + stream->come, 2 * LARGEST - stream->come, MSG_DONTWAIT);
  if (length < 0) {
    if (!is_blocked())
      fail_at("recv");
    return;
  }
  if (length == 0)
    fail("the server closed a stream");
  stream->come += (size_t)length;
  size_t begins = 0;
  while (stream->come - begins >= HEADER) {
    const unsigned char *message = stream->incoming + begins;
    size_t whole = length_of(message);
    if (whole < HEADER || whole > LARGEST)
      fail("a reply of %zu bytes", whole);
    if (stream->come - begins < whole)
      break;
    if (!arrive(&stream->flight, xid_of(message), whole))
      fail("a reply to no request");
    stream->answered++;
    begins += whole;
  }
  stream->come -= begins;
  memmove(stream->incoming, stream->incoming + begins, stream->come);
}

/* Keeps the server busy with streams until the moment `end`. */
static void load_streams(double end, unsigned sockets, unsigned most, unsigned long each) {
  struct pollfd *polled = taken(sockets, sizeof *polled);
  struct stream *streams = taken(sockets, sizeof *streams);
  for (unsigned i = 0; i < sockets; i++) {
    streams[i].socket = connected();
    streams[i].flight.sent = taken(XIDS, sizeof *streams[i].flight.sent);
    streams[i].outgoing = taken(LARGEST, 1);
    streams[i].incoming = taken(2 * LARGEST, 1);
  }
  while (now() < end) {
    for (unsigned i = 0; i < sockets; i++) {
      send_on(&streams[i], most, each);
      polled[i].fd = streams[i].socket;
      polled[i].events = streams[i].begins < streams[i].ends ? POLLIN | POLLOUT : POLLIN;
    }
    if (poll(polled, sockets, TURN) < 0 && errno != EINTR)
      fail_at("poll");
    for (unsigned i = 0; i < sockets; i++) {
      if (polled[i].revents & ~POLLOUT)
        receive_on(&streams[i]);
      if (each && streams[i].answered == each) {
        close(streams[i].socket);
        streams[i].socket = connected();
        streams[i].sent = streams[i].answered = 0;
        connection_count++;
      }
    }
  }
}

/* The microseconds that so large a part of the replies took at most. */
static unsigned long wait_of(double part) {
  double counted = 0;
  for (unsigned long i = 0; i <= SLOWEST; i++) {
    counted += (double)waits[i];
    if (counted > 0 && counted >= part * (double)reply_count)
      return i + 1;
  }
  return 0;
}

static void read_request(struct request *request, const char *path) {
  FILE *file = fopen(path, "rb");
  if (!file)
    fail("%s: %s", path, strerror(errno));
  request->bytes = taken(LARGEST + 1, 1);
  request->length = fread(request->bytes, 1, LARGEST + 1, file);
  if (ferror(file))
    fail("%s cannot be read", path);
  fclose(file);
  if (request->length < HEADER || request->length > LARGEST)
    fail("%s is not a message of %d to %d bytes", path, HEADER, LARGEST);
}

/* A number from `least` to `most`, or -1. */
static long number(const char *text, long least, long most) {
  char *end;
  errno = 0;
  long value = strtol(text, &end, 10);
  return errno || end == text || *end || value < least || value > most ? -1 : value;
}

int main(int count, char **words) {
  bool on_streams = count > 1 && !strcmp(words[1], "stream");
  int first = on_streams ? 8 : 7;
  bool is_usage = count <= first || (!on_streams && strcmp(words[1], "udp"));
  long port = is_usage ? -1 : number(words[3], 1, 65535);
  long seconds = is_usage ? -1 : number(words[4], 1, 3600);
  long sockets = is_usage ? -1 : number(words[5], 1, MOST_SOCKETS);
  long most = is_usage ? -1 : number(words[6], 1, MOST_FLIGHT);
  long each = is_usage || !on_streams ? 0 : number(words[7], 0, 1000000000);
  server.sin_family = AF_INET;
  if (is_usage || port < 0 || seconds < 0 || sockets < 0 || most < 0 || each < 0 ||
      inet_pton(AF_INET, words[2], &server.sin_addr) != 1) {
    fprintf(stderr, "usage: load udp ADDRESS PORT SECONDS SOCKETS FLIGHT FILE..\n"
                    "       load stream ADDRESS PORT SECONDS SOCKETS FLIGHT EACH FILE..\n");
    return 64;
  }
  server.sin_port = htons((uint16_t)port);
  request_count = (size_t)(count - first);
  requests = taken(request_count, sizeof *requests);
  for (size_t i = 0; i < request_count; i++)
    read_request(&requests[i], words[first + (int)i]);
  waits = taken(SLOWEST + 1, sizeof *waits);

  double begin = now();
  if (on_streams)
    load_streams(begin + (double)seconds, (unsigned)sockets, (unsigned)most, (unsigned long)each);
  else
    load_datagrams(begin + (double)seconds, (unsigned)sockets, (unsigned)most);
  double took = now() - begin;

  printf("requests=%lu replies=%lu lost=%lu connections=%lu rate=%.0f bytes=%.1f p50=%lu p99=%lu\n", sent_count, reply_count,
         lost_count, connection_count, (double)reply_count / took, reply_count ? reply_bytes / (double)reply_count : 0,
         wait_of(0.5), wait_of(0.99));
  return 0;
}
