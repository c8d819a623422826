// What the program's code calls besides the C library: the heap, the words of the command line, and errno. The kit links the same
// seven functions from its liblibc_c.a and libos_c.a.
#include <errno.h>
#include <stddef.h>
#include <stdlib.h>

// Whether there is memory, and where. It is answered in two registers.
typedef struct {
  size_t is_there;
  void *at;
} Block;

static char nothing;

static Block block(void *at) { return (Block){at != NULL, at ? at : &nothing}; }

// Alignments divide 16, which malloc keeps to.
Block rattle_alloc(size_t size, size_t align) { return block(malloc(size ? size : align)); }

Block rattle_realloc(void *at, size_t old, size_t size, size_t align) {
  (void)old;
  return block(realloc(at, size ? size : align));
}

void rattle_dealloc(void *at) { free(at); }

int rattle_errno(void) { return errno; }

void rattle_set_errno(int number) { errno = number; }

static int count;
static char **words;

// The C library of GNU hands the words to constructors.
__attribute__((constructor)) static void keep(int argc, char **argv) {
  count = argc;
  words = argv;
}

long rattle_arg_count(void) { return count; }

// Copies a word: its length, or -1 if there is none, or -2 if there is no room for it.
long rattle_arg(size_t at, char *to, size_t room) {
  if (at >= (size_t)count || !words[at]) return -1;
  const char *word = words[at];
  size_t n = 0;
  for (; word[n]; n++) {
    if (n == room) return -2;
    to[n] = word[n];
  }
  return (long)n;
}
