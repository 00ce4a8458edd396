/* Sends the messages of a file over this many connections, one at a time on each, and says how many were answered a second and how long a
   reply took. All messages have one length.

   usage: parallel PORT FILE LENGTH CONNECTIONS */
#define _GNU_SOURCE
#include <arpa/inet.h>
#include <netinet/tcp.h>
#include <stdio.h>
#include <stdlib.h>
#include <string.h>
#include <strings.h>
#include <sys/epoll.h>
#include <sys/socket.h>
#include <time.h>
#include <unistd.h>

enum { EVENTS = 256, PATIENCE_MILLISECONDS = 20000 };

struct client {
  int socket;
  double sent_at;
  size_t held;
  char reply[65536];
};

static char *messages;
static size_t length, count, next, answered;
static double *times;

static double now(void) {
  struct timespec at;
  clock_gettime(CLOCK_MONOTONIC, &at);
  return (double)at.tv_sec + (double)at.tv_nsec / 1e9;
}

static int order(const void *one, const void *other) {
  double a = *(const double *)one, b = *(const double *)other;
  return (a > b) - (a < b);
}

static void fail(const char *what, const char *more) {
  fprintf(stderr, "parallel: %s %.300s\n", what, more);
  exit(1);
}

static void read_messages(const char *path) {
  FILE *file = fopen(path, "rb");
  if (!file || length == 0) fail("no messages in", path);
  fseek(file, 0, SEEK_END);
  count = (size_t)ftell(file) / length;
  rewind(file);
  messages = malloc(count * length);
  times = malloc(count * sizeof *times);
  if (!messages || !times || fread(messages, length, count, file) != count) fail("the messages of", path);
  fclose(file);
}

static int connected(int port) {
  int on = 1, made = socket(AF_INET, SOCK_STREAM, 0);
  struct sockaddr_in to = {.sin_family = AF_INET, .sin_port = htons((unsigned short)port), .sin_addr.s_addr = htonl(INADDR_LOOPBACK)};
  if (connect(made, (struct sockaddr *)&to, sizeof to) != 0) fail("nobody listens", "");
  setsockopt(made, IPPROTO_TCP, TCP_NODELAY, &on, sizeof on);
  return made;
}

/* Sends the next message, if there is one. */
static void send_next(struct client *client) {
  if (next == count) return;
  client->sent_at = now();
  if (write(client->socket, messages + next++ * length, length) != (ssize_t)length) fail("a message was not taken", "");
}

/* Reads on; once the reply is whole, and says that the write was taken, its time is kept and the next message sent. */
static void take(struct client *client) {
  ssize_t more = read(client->socket, client->reply + client->held, sizeof client->reply - 1 - client->held);
  if (more <= 0) fail("a connection ended", "");
  client->held += (size_t)more;
  client->reply[client->held] = 0;
  char *end = strstr(client->reply, "\r\n\r\n");
  if (!end) return;
  char *field = strcasestr(client->reply, "\r\ncontent-length:");
  if (!field || field > end) fail("a reply without its length:", client->reply);
  if (client->held < (size_t)(end + 4 - client->reply) + strtoul(field + 17, NULL, 10)) return;
  if (strncmp(client->reply, "HTTP/1.1 2", 10) != 0) fail("refused:", client->reply);
  client->held = 0;
  times[answered++] = now() - client->sent_at;
  send_next(client);
}

int main(int argc, char **argv) {
  if (argc != 5) return 2;
  length = strtoul(argv[3], NULL, 10);
  read_messages(argv[2]);
  int clients = atoi(argv[4]), set = epoll_create1(0);
  struct client *client = calloc((size_t)clients, sizeof *client);
  for (int i = 0; i < clients; i++) {
    client[i].socket = connected(atoi(argv[1]));
    struct epoll_event event = {.events = EPOLLIN, .data.u32 = (unsigned)i};
    epoll_ctl(set, EPOLL_CTL_ADD, client[i].socket, &event);
  }
  double start = now();
  for (int i = 0; i < clients; i++) send_next(&client[i]);
  while (answered < count) {
    struct epoll_event events[EVENTS];
    int ready = epoll_wait(set, events, EVENTS, PATIENCE_MILLISECONDS);
    if (ready <= 0) fail("no reply comes any more", "");
    for (int i = 0; i < ready; i++) take(&client[events[i].data.u32]);
  }
  double seconds = now() - start;
  qsort(times, count, sizeof *times, order);
  printf("%.0f a second; median %.2f ms, 99 of 100 within %.2f ms, longest %.2f ms\n", (double)count / seconds, times[count / 2] * 1e3,
         times[count * 99 / 100] * 1e3, times[count - 1] * 1e3);
  return 0;
}
