// Tries heap.c on the machine at hand, with a piece of its memory as the module's: random calls, each block of which keeps what was
// written to it, is aligned to 16 and lies within the memory; and the end of memory. Prints what it did; exits with 1 at the first fault.
//
//   cc -O1 -o heap-check heap-check.c && ./heap-check
#define _GNU_SOURCE
#include <stdio.h>
#include <stdlib.h>
#include <string.h>
#include <sys/mman.h>

static unsigned long pages; // the end of the memory, from address 0
static unsigned long most;
char *base;

static unsigned long size_now(void) { return pages; }

static unsigned long grow(unsigned long by) {
  if (by > most - pages) return ~0ul;
  pages += by;
  return pages - by;
}

#define __heap_base (*base)
#define __builtin_wasm_memory_size(memory) size_now()
#define __builtin_wasm_memory_grow(memory, by) grow(by)
#define export_name(name)
#include "heap.c"

enum { BLOCKS = 2000, CALLS = 2000000, ROOM = 1 << 29 };
static struct { unsigned char *at; word size; unsigned char with; } blocks[BLOCKS];

static void fail(const char *why) {
  printf("heap.c: %s\n", why);
  exit(1);
}

static word some_size(void) { return (word)(rand() % 100 < 97 ? rand() % 300 : rand() % 200000); }

static void look(int i) {
  if ((word)blocks[i].at % 16) fail("a block is not aligned");
  if ((word)blocks[i].at < (word)base || (word)blocks[i].at + blocks[i].size > pages * PAGE) fail("a block lies outside");
  for (word k = 0; k < blocks[i].size; k++)
    if (blocks[i].at[k] != blocks[i].with) fail("a block has changed");
}

static void fill(int i, Answer got, word size) {
  if (!got.there) fail("there was no block");
  blocks[i].at = got.at;
  blocks[i].size = size;
  blocks[i].with = (unsigned char)rand();
  memset(got.at, blocks[i].with, size);
}

static void step(int i) {
  word size = some_size();
  if (!blocks[i].at) {
    fill(i, rattle_alloc(size, 8), size);
    return;
  }
  look(i);
  if (rand() % 2) {
    rattle_dealloc(blocks[i].at);
    blocks[i].at = 0;
    return;
  }
  word kept = size < blocks[i].size ? size : blocks[i].size;
  Answer got = rattle_realloc(blocks[i].at, kept, size, 8);
  blocks[i].at = got.at;
  blocks[i].size = kept;
  look(i);
  fill(i, got, size);
}

int main(void) {
  base = mmap(0, ROOM, PROT_READ | PROT_WRITE, MAP_PRIVATE | MAP_ANONYMOUS | MAP_32BIT | MAP_NORESERVE, -1, 0);
  if (base == MAP_FAILED) fail("there is no memory for the check");
  pages = (word)base / PAGE + 1;
  most = ((word)base + ROOM) / PAGE;
  for (int n = 0; n < CALLS; n++) step(rand() % BLOCKS);
  for (int i = 0; i < BLOCKS; i++)
    if (blocks[i].at) look(i);
  if (rattle_alloc(ROOM, 1).there || rattle_alloc(~0ul, 1).there || rattle_alloc(MOST + 1, 1).there) fail("a block is too large");
  if (!rattle_alloc(0, 16).there || !page_room(0)) fail("a block of no bytes is not there");
  word left = 0;
  while (rattle_alloc(1 << 20, 1).there) left++;
  if (rattle_alloc(1 << 20, 1).there || left == 0) fail("the end of memory");
  for (int i = 0; i < BLOCKS; i++)
    if (blocks[i].at) look(i);
  printf("heap.c: %d calls, and the end of memory after %lu MB more\n", CALLS, left);
}
