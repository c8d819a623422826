// The memory of the page, in the place of malloc, realloc and free. A block has 2^k bytes, of which
// the first 16 hold k, and a block that was given back waits in the list of its size. Blocks are
// taken from the end of the module's memory, which grows as far as 4 GiB.
typedef unsigned long word;
typedef struct { word there; void *at; } Answer; // whether there is a block, and where

extern char __heap_base;

static const word MOST = 0xffff0000;
static const word PAGE = 65536;
static const word HEAD = 16;
static word end;
static word lists[34];
static char nothing; // an address for the answer that there is no block

static word *head(void *at) { return (word *)((char *)at - HEAD); }

// The first block that waits in a list.
static void *first(word k) {
  void *at = (void *)lists[k];
  lists[k] = *(word *)at;
  return at;
}

// A new block, or null where the memory does not grow so far.
static void *grown(word k) {
  if (!end) end = ((word)&__heap_base + HEAD - 1) / HEAD * HEAD;
  word next = end + (1ul << k), have = __builtin_wasm_memory_size(0) * PAGE;
  if (next > MOST) return 0;
  if (next > have) {
    word pages = (next - have + PAGE - 1) / PAGE;
    if (__builtin_wasm_memory_grow(0, pages) == ~0ul) return 0;
  }
  void *at = (char *)end + HEAD;
  *head(at) = k;
  end = next;
  return at;
}

static void *take(word size) {
  if (size > MOST) return 0;
  if (size < sizeof(word)) size = sizeof(word); // what a list needs of a block
  word k = 64 - __builtin_clzl(size + HEAD - 1); // the least k with size + HEAD <= 2^k
  return lists[k] ? first(k) : grown(k);
}

static Answer answer(void *at) { return (Answer){at != 0, at ? at : &nothing}; }

Answer rattle_alloc(word size, word align) { return answer(take(size)); }

void rattle_dealloc(void *at) {
  word k = *head(at);
  *(word *)at = lists[k];
  lists[k] = (word)at;
}

Answer rattle_realloc(void *at, word kept, word size, word align) {
  word room = (1ul << *head(at)) - HEAD;
  if (size <= room) return answer(at);
  void *to = take(size);
  if (to) {
    __builtin_memcpy(to, at, kept);
    rattle_dealloc(at);
  }
  return answer(to);
}

// Room for the texts that the page passes, and for those that it gets.
__attribute__((export_name("page_room"))) void *page_room(word size) { return take(size); }
