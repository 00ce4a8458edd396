/* Sends the messages of a file over one connection, this many at a time, each batch once the replies to the one before it are there, and
   says how many were answered a second. All messages have one length. */
#define _GNU_SOURCE
#include <arpa/inet.h>
#include <netinet/tcp.h>
#include <stdio.h>
#include <stdlib.h>
#include <string.h>
#include <strings.h>
#include <sys/socket.h>
#include <time.h>
#include <unistd.h>

static char buffer[1 << 20];
static size_t held;

/* Takes one reply off the front of what was read, reading on as needed; 0 unless its status begins with 2. */
static int take_reply(int connection) {
  for (;;) {
    buffer[held] = 0;
    char *end = strstr(buffer, "\r\n\r\n");
    if (end) {
      char *field = strcasestr(buffer, "\r\ncontent-length:");
      if (!field || field > end) return 0;
      size_t whole = (size_t)(end + 4 - buffer) + strtoul(field + 17, NULL, 10);
      if (held >= whole) {
        int good = strncmp(buffer, "HTTP/1.1 2", 10) == 0;
        memmove(buffer, buffer + whole, held - whole);
        held -= whole;
        return good;
      }
    }
    ssize_t more = read(connection, buffer + held, sizeof buffer - 1 - held);
    if (more <= 0) return 0;
    held += (size_t)more;
  }
}

static double now(void) {
  struct timespec at;
  clock_gettime(CLOCK_MONOTONIC, &at);
  return (double)at.tv_sec + (double)at.tv_nsec / 1e9;
}

int main(int argc, char **argv) {
  if (argc != 5) return 2;
  int port = atoi(argv[1]), count = 0, on = 1;
  size_t length = strtoul(argv[3], NULL, 10), depth = strtoul(argv[4], NULL, 10);
  FILE *file = fopen(argv[2], "rb");
  char *batch = malloc(length * depth);
  int connection = socket(AF_INET, SOCK_STREAM, 0);
  struct sockaddr_in to = {.sin_family = AF_INET, .sin_port = htons((unsigned short)port), .sin_addr.s_addr = htonl(INADDR_LOOPBACK)};
  if (!file || !batch || connect(connection, (struct sockaddr *)&to, sizeof to) != 0) return 4;
  setsockopt(connection, IPPROTO_TCP, TCP_NODELAY, &on, sizeof on);
  double from = now();
  for (size_t got; (got = fread(batch, length, depth, file)) > 0; count += (int)got) {
    for (size_t sent = 0; sent < got * length;) {
      ssize_t some = write(connection, batch + sent, got * length - sent);
      if (some <= 0) return 4;
      sent += (size_t)some;
    }
    for (size_t i = 0; i < got; i++)
      if (!take_reply(connection)) { fprintf(stderr, "pipelined: a message was refused: %.200s\n", buffer); return 1; }
  }
  double seconds = now() - from;
  printf("%d messages, %zu at a time: %.2f s, %.0f a second\n", count, depth, seconds, count / seconds);
  return 0;
}
