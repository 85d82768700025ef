/* Loaded before the C library by LD_PRELOAD (tests/memory does it): counts a program's requests for memory, and refuses some.
 *
 *   REFUSE=N       the Nth request, from 1, gets a null pointer, once; with 0, or without REFUSE, no request does
 *   SPAN=K         so do the requests after it, K in all
 *   COUNT=FILE     a file that is there: gets the number of requests when the program ends
 *
 * The toolchain's clang builds it, which has no C headers: so it declares what it uses of the C library of 64-bit Linux.
 */
typedef unsigned long size_t;

extern void *dlsym(void *library, const char *name);
extern int *__errno_location(void);
extern char *getenv(const char *name);
extern long atol(const char *text);
extern int open(const char *name, int flags, ...);
extern int dprintf(int file, const char *format, ...);
extern int close(int file);

#define NULL ((void *)0)
#define RTLD_NEXT ((void *)-1L)
#define ENOMEM 12
#define O_WRONLY 1

static long requests;
static long refused;
static long span = 1;
static int is_looking_up;

/* dlsym itself may request memory before the real functions are known: it gets some of this. */
static char early[65536];
static size_t early_used;

static void *early_memory(size_t size) {
  void *memory = early + early_used;
  early_used += (size + 15) & ~(size_t)15;
  return early_used <= sizeof early ? memory : NULL;
}

static int is_early(const void *memory) {
  return (const char *)memory >= early && (const char *)memory < early + sizeof early;
}

static void *real(const char *name) {
  void *found;
  is_looking_up = 1;
  found = dlsym(RTLD_NEXT, name);
  is_looking_up = 0;
  return found;
}

static int is_refused(void) {
  requests++;
  if (refused == 0 || requests < refused || requests - refused >= span) return 0;
  *__errno_location() = ENOMEM;
  return 1;
}

void *malloc(size_t size) {
  static void *(*next)(size_t);
  if (is_looking_up) return early_memory(size);
  if (!next) next = real("malloc");
  return is_refused() ? NULL : next(size);
}

void *calloc(size_t count, size_t size) {
  static void *(*next)(size_t, size_t);
  if (is_looking_up) return early_memory(count * size);
  if (!next) next = real("calloc");
  return is_refused() ? NULL : next(count, size);
}

void *realloc(void *memory, size_t size) {
  static void *(*next)(void *, size_t);
  if (!next) next = real("realloc");
  return is_refused() ? NULL : next(memory, size);
}

void *aligned_alloc(size_t alignment, size_t size) {
  static void *(*next)(size_t, size_t);
  if (!next) next = real("aligned_alloc");
  return is_refused() ? NULL : next(alignment, size);
}

int posix_memalign(void **memory, size_t alignment, size_t size) {
  static int (*next)(void **, size_t, size_t);
  if (!next) next = real("posix_memalign");
  return is_refused() ? ENOMEM : next(memory, alignment, size);
}

void free(void *memory) {
  static void (*next)(void *);
  if (is_early(memory)) return;
  if (!next) next = real("free");
  next(memory);
}

/* Writes the number of requests: those of its own aren't among them, nor refused. */
__attribute__((destructor)) static void tell(void) {
  long all = requests;
  const char *name = getenv("COUNT");
  int file;
  refused = 0;
  file = name ? open(name, O_WRONLY) : -1;
  if (file < 0) return;
  dprintf(file, "%ld\n", all);
  close(file);
}

__attribute__((constructor)) static void start(void) {
  const char *number = getenv("REFUSE");
  const char *length = getenv("SPAN");
  refused = number ? atol(number) : 0;
  span = length ? atol(length) : 1;
  requests = 0;
}
