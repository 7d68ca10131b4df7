/* Memory for the library in WebAssembly: blocks of 32 bytes, 64 bytes and so on, and a list of the free ones of each size.

   The toolchain's own functions call the C library, which isn't there. */
typedef __SIZE_TYPE__ size;

#define PAGE 65536
#define CLASSES 48
/* A block begins with its class, and what is lent follows at the next multiple of 16. */
#define HEAD 16

typedef struct block {
  union {
    size class;
    struct block *next;
  } head;
} block;

/* Whether memory was found, and where. */
typedef struct found {
  size is_found;
  unsigned char *at;
} found;

extern unsigned char __heap_base;
static block *empty[CLASSES];
static unsigned char *end, *limit;
/* Where a block without bytes is. */
static unsigned char nothing[16];

void *memcpy(void *to, const void *from, size count) {
  return __builtin_memcpy(to, from, count);
}

void *memmove(void *to, const void *from, size count) {
  return __builtin_memmove(to, from, count);
}

void *memset(void *to, int byte, size count) {
  return __builtin_memset(to, byte, count);
}

/* The class of the smallest blocks that have so many bytes behind their heads. */
static size class_of(size count) {
  size class = 5;
  while (class < CLASSES && ((size)1 << class) - HEAD < count)
    class++;
  return class;
}

/* Takes new memory at the end, or returns NULL if there is none. */
static unsigned char *taken(size count) {
  if (end == 0) {
    end = (unsigned char *)(((size)&__heap_base + 15) & ~(size)15);
    limit = (unsigned char *)(__builtin_wasm_memory_size(0) * PAGE);
  }
  if ((size)(limit - end) < count) {
    size pages = (count - (size)(limit - end) + PAGE - 1) / PAGE;
    if (__builtin_wasm_memory_grow(0, pages) == (size)-1)
      return 0;
    limit += pages * PAGE;
  }
  unsigned char *at = end;
  end += count;
  return at;
}

void *malloc(size count) {
  size class = class_of(count);
  if (class == CLASSES)
    return 0;
  block *it = empty[class];
  if (it)
    empty[class] = it->head.next;
  else
    it = (block *)taken((size)1 << class);
  if (it == 0)
    return 0;
  it->head.class = class;
  return (unsigned char *)it + HEAD;
}

void free(void *at) {
  if (at == 0)
    return;
  block *it = (block *)((unsigned char *)at - HEAD);
  size class = it->head.class;
  it->head.next = empty[class];
  empty[class] = it;
}

static unsigned char *moved(unsigned char *old, size count) {
  size had = ((size)1 << ((block *)(old - HEAD))->head.class) - HEAD;
  if (count <= had)
    return old;
  unsigned char *new = malloc(count);
  if (new) {
    memcpy(new, old, had);
    free(old);
  }
  return new;
}

static found found_at(unsigned char *at) {
  return (found){at != 0, at ? at : nothing};
}

/* What the library calls: memory of a size and an alignment, which is 16 at most. */
found rattle_alloc(size count, size alignment) {
  return found_at(malloc(count ? count : alignment));
}

found rattle_realloc(unsigned char *old, size old_count, size count, size alignment) {
  (void)old_count;
  return found_at(moved(old, count ? count : alignment));
}

void rattle_dealloc(unsigned char *at) {
  free(at);
}
