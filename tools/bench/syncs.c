/* Writes a sector and syncs, this many times: what the disk alone takes for as many acknowledged writes. A store's write takes two such
   pairs. */
#include <fcntl.h>
#include <stdio.h>
#include <stdlib.h>
#include <string.h>
#include <time.h>
#include <unistd.h>

int main(int argc, char **argv) {
  if (argc != 3) return 2;
  int pairs = atoi(argv[2]);
  char sector[512];
  memset(sector, 0xA5, sizeof sector);
  int file = open(argv[1], O_RDWR | O_CREAT | O_TRUNC, 0600);
  if (file < 0) return 4;
  struct timespec from, to;
  clock_gettime(CLOCK_MONOTONIC, &from);
  for (int i = 0; i < pairs; i++)
    if (pwrite(file, sector, sizeof sector, (off_t)i * 512) != 512 || fsync(file) != 0) return 4;
  clock_gettime(CLOCK_MONOTONIC, &to);
  double seconds = (double)(to.tv_sec - from.tv_sec) + (double)(to.tv_nsec - from.tv_nsec) / 1e9;
  printf("%d write-sync pairs: %.2f s, %.0f a second\n", pairs, seconds, pairs / seconds);
  return 0;
}
