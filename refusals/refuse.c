/* refuse: a library for LD_PRELOAD. It stands before malloc, realloc and calloc of the C library, and refuses some of a process's requests.
 *
 *   REFUSE=N     refuses the Nth request, counted from 1; 0 refuses none
 *   REFUSE=N+K   the Nth and the K after it
 *   REFUSE=N+    the Nth and all after it
 *   REFUSE_TOLD  a file of 16 bytes, for two numbers of 8: how many requests there were, and how many of them were refused
 *
 * It is built without a header and without a library. */
typedef unsigned long size_t;
extern void *__libc_malloc(size_t), *__libc_realloc(void *, size_t), *__libc_calloc(size_t, size_t);
extern char *getenv(const char *);
extern int open(const char *, int, ...);
extern void *mmap(void *, size_t, int, int, int, long);
extern int *__errno_location(void);

enum { READ_WRITE = 2, PROT_READ_WRITE = 3, MAP_SHARED = 1, NO_MEMORY = 12 };

static long own[2], *told, first, last;

static const char *number(const char *digits, long *n) {
  for (*n = 0; *digits >= '0' && *digits <= '9'; digits++)
    *n = 10 * *n + (*digits - '0');
  return digits;
}

/* The numbers are kept in a mapped file, since a program may end without its destructors. */
static void begin(void) {
  const char *word = getenv("REFUSE"), *file = getenv("REFUSE_TOLD");
  int f = file ? open(file, READ_WRITE) : -1;
  void *map = f < 0 ? (void *)-1 : mmap(0, 16, PROT_READ_WRITE, MAP_SHARED, f, 0);
  if (word) {
    word = number(word, &first);
    last = first;
    if (*word == '+') {
      long more;
      number(word + 1, &more);
      last = word[1] ? first + more : __LONG_MAX__;
    }
  }
  told = map == (void *)-1 ? own : map;
}

static int is_refused(void) {
  if (!told)
    begin();
  long n = __atomic_add_fetch(&told[0], 1, __ATOMIC_SEQ_CST);
  if (!first || n < first || n > last)
    return 0;
  __atomic_add_fetch(&told[1], 1, __ATOMIC_SEQ_CST);
  /* The C library asserts it where a thread finds no memory. */
  *__errno_location() = NO_MEMORY;
  return 1;
}

void *malloc(size_t size) { return is_refused() ? 0 : __libc_malloc(size); }
void *realloc(void *block, size_t size) { return is_refused() ? 0 : __libc_realloc(block, size); }
void *calloc(size_t count, size_t size) { return is_refused() ? 0 : __libc_calloc(count, size); }
