// The load of bench/proxy.sh, over loopback.
//
//   load echo PORT                   a server that sends back what it reads
//   load source PORT                 a server that reads eight octets, and sends as many octets as they say
//   load ping PORT CONNS PAIRS SIZE  a client: SIZE octets there and back, PAIRS times in all, over CONNS connections
//   load pull PORT CONNS MIB         a client of `source`: MIB in all, over CONNS connections
//   load turn PORT COUNT             a client: COUNT connections, one after another, each with one octet there and back
#define _GNU_SOURCE
#include <arpa/inet.h>
#include <netinet/tcp.h>
#include <stdint.h>
#include <stdio.h>
#include <stdlib.h>
#include <string.h>
#include <sys/epoll.h>
#include <sys/socket.h>
#include <unistd.h>

enum { MOST = 65536 };

static const int on = 1;
static char block[1 << 18];
static int64_t left[MOST]; // what a source still has to send, by descriptor
static int poll_fd;

static void fail(const char *what) {
  perror(what);
  exit(1);
}

static struct sockaddr_in at(int port) {
  struct sockaddr_in address = {.sin_family = AF_INET, .sin_port = htons(port)};
  address.sin_addr.s_addr = htonl(INADDR_LOOPBACK);
  return address;
}

static void watch(int op, int fd, uint32_t events) {
  struct epoll_event event = {.events = events, .data.fd = fd};
  if (epoll_ctl(poll_fd, op, fd, &event)) fail("epoll_ctl");
}

static int client(int port) {
  struct sockaddr_in address = at(port);
  int fd = socket(AF_INET, SOCK_STREAM, 0);
  if (connect(fd, (void *)&address, sizeof address)) fail("connect");
  setsockopt(fd, IPPROTO_TCP, TCP_NODELAY, &on, sizeof on);
  return fd;
}

static int listener(int port) {
  struct sockaddr_in address = at(port);
  int fd = socket(AF_INET, SOCK_STREAM, 0);
  setsockopt(fd, SOL_SOCKET, SO_REUSEADDR, &on, sizeof on);
  if (bind(fd, (void *)&address, sizeof address) || listen(fd, 1024)) fail("listen");
  return fd;
}

static void come(int from) {
  int fd = accept4(from, 0, 0, SOCK_NONBLOCK);
  if (fd < 0 || fd >= MOST) return;
  setsockopt(fd, IPPROTO_TCP, TCP_NODELAY, &on, sizeof on);
  left[fd] = 0;
  watch(EPOLL_CTL_ADD, fd, EPOLLIN);
}

static void echo(int fd) {
  ssize_t n = recv(fd, block, sizeof block, 0);
  if (n <= 0) close(fd);
  else if (send(fd, block, n, MSG_NOSIGNAL) < n) close(fd);
}

static void source(int fd) {
  if (left[fd] == 0) {
    if (recv(fd, &left[fd], 8, 0) < 8) {
      close(fd);
      return;
    }
    watch(EPOLL_CTL_MOD, fd, EPOLLIN | EPOLLOUT);
  }
  while (left[fd] > 0) {
    ssize_t n = send(fd, block, left[fd] < MOST ? left[fd] : MOST, MSG_NOSIGNAL);
    if (n < 0) return;
    left[fd] -= n;
  }
  watch(EPOLL_CTL_MOD, fd, EPOLLIN);
}

static void serve(int port, void (*answer)(int)) {
  struct epoll_event events[256];
  int door = listener(port);
  watch(EPOLL_CTL_ADD, door, EPOLLIN);
  for (;;) {
    int n = epoll_wait(poll_fd, events, 256, -1);
    for (int i = 0; i < n; i++) {
      if (events[i].data.fd == door) come(door);
      else answer(events[i].data.fd);
    }
  }
}

static void ping(int port, int conns, long pairs, int size) {
  struct epoll_event events[256];
  static int have[MOST];
  long sent = 0, got = 0;
  for (int i = 0; i < conns; i++) {
    int fd = client(port);
    watch(EPOLL_CTL_ADD, fd, EPOLLIN);
    send(fd, block, size, 0);
    sent++;
  }
  while (got < pairs) {
    int n = epoll_wait(poll_fd, events, 256, 10000);
    if (n <= 0) fail("nothing comes");
    for (int i = 0; i < n; i++) {
      int fd = events[i].data.fd;
      ssize_t came = recv(fd, block, sizeof block, MSG_DONTWAIT);
      if (came <= 0) fail("recv");
      for (have[fd] += came; have[fd] >= size; have[fd] -= size) {
        got++;
        if (sent < pairs) {
          send(fd, block, size, 0);
          sent++;
        }
      }
    }
  }
}

static void pull(int port, int conns, long mib) {
  struct epoll_event events[256];
  int64_t each = (int64_t)mib * 1048576 / conns, total = 0;
  for (int i = 0; i < conns; i++) {
    int fd = client(port);
    watch(EPOLL_CTL_ADD, fd, EPOLLIN);
    send(fd, &each, 8, 0);
  }
  while (total < each * conns) {
    int n = epoll_wait(poll_fd, events, 256, 10000);
    if (n <= 0) fail("nothing comes");
    for (int i = 0; i < n; i++) {
      ssize_t came = recv(events[i].data.fd, block, sizeof block, MSG_DONTWAIT);
      if (came <= 0) fail("recv");
      total += came;
    }
  }
}

static void turn(int port, long count) {
  for (long i = 0; i < count; i++) {
    int fd = client(port);
    if (send(fd, "x", 1, 0) != 1 || recv(fd, block, 1, 0) != 1) fail("turn");
    close(fd);
  }
}

int main(int count, char **words) {
  poll_fd = epoll_create1(0);
  if (count == 3 && !strcmp(words[1], "echo")) serve(atoi(words[2]), echo);
  else if (count == 3 && !strcmp(words[1], "source")) serve(atoi(words[2]), source);
  else if (count == 6 && !strcmp(words[1], "ping")) ping(atoi(words[2]), atoi(words[3]), atol(words[4]), atoi(words[5]));
  else if (count == 5 && !strcmp(words[1], "pull")) pull(atoi(words[2]), atoi(words[3]), atol(words[4]));
  else if (count == 4 && !strcmp(words[1], "turn")) turn(atoi(words[2]), atol(words[3]));
  else return 2;
  return 0;
}
