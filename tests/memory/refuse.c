/* Loaded before the C library, this refuses a program one request for memory, one of a certain thread, or
 * some of its threads.
 *
 *   REFUSE_REQUEST=N   the request with this number is refused, from 1 on
 *   REFUSE_THREADS=M   the thread start with number i, from 0 on, is refused where bit i of M is set
 *   REFUSE_OF=I:N      of the thread of the start with number I the request with number N is refused, from 1 on
 *   REFUSE_COUNTS=PATH at the end the file has two numbers: requests and thread starts
 *
 * Requests count from the first line of the program on, in whatever thread they come. It names no
 * header, so that a compiler without the C library's headers makes it. */

typedef unsigned long size_t;

extern char *getenv(const char *);
extern unsigned long strtoul(const char *, char **, int);
extern void *dlsym(void *, const char *);
extern int open(const char *, int, ...);
extern int dprintf(int, const char *, ...);
extern int close(int);
extern int *__errno_location(void);
extern void *__libc_malloc(size_t);
extern void *__libc_calloc(size_t, size_t);
extern void *__libc_realloc(void *, size_t);
extern void *__libc_memalign(size_t, size_t);

enum { NO_MEMORY = 12, TRY_AGAIN = 11, WRITE_NEW = 01 | 0100 | 01000 };

#define NEXT ((void *)-1L)

enum { THREADS = 256, FIRST = -1 };

static int armed;
static unsigned long requests, starts;
static unsigned long refused_request, refused_threads;

/* A thread, and which of its requests is refused. */
static long refused_thread = FIRST;
static unsigned long refused_of;

/* Which start a thread came of, and how many requests it made. */
static __thread long self __attribute__((tls_model("initial-exec"))) = FIRST;
static __thread unsigned long of_self __attribute__((tls_model("initial-exec")));

static unsigned long number(const char *name) {
  const char *text = getenv(name);
  return text ? strtoul(text, 0, 10) : 0;
}

__attribute__((constructor)) static void begin(void) {
  const char *of = getenv("REFUSE_OF");
  char *colon;
  refused_request = number("REFUSE_REQUEST");
  refused_threads = number("REFUSE_THREADS");
  if (of) {
    refused_thread = (long)strtoul(of, &colon, 10);
    refused_of = *colon == ':' ? strtoul(colon + 1, 0, 10) : 0;
  }
  armed = 1;
}

static void tell(void) {
  const char *path = getenv("REFUSE_COUNTS");
  armed = 0;
  int file = path ? open(path, WRITE_NEW, 0644) : -1;
  if (file >= 0) {
    dprintf(file, "%lu %lu\n", requests, starts);
    close(file);
  }
}

/* The program ends here, and no destructor runs. */
void _exit(int status) {
  void (*leave)(int) = dlsym(NEXT, "_exit");
  tell();
  leave(status);
  __builtin_unreachable();
}

/* Whether this request is the one to be refused. */
static int is_refused(void) {
  if (!armed) return 0;
  int is_request = __atomic_add_fetch(&requests, 1, __ATOMIC_SEQ_CST) == refused_request;
  int is_of_self = self != FIRST && self == refused_thread && ++of_self == refused_of;
  if (!is_request && !is_of_self) return 0;
  *__errno_location() = NO_MEMORY;
  return 1;
}

void *malloc(size_t size) { return is_refused() ? 0 : __libc_malloc(size); }

void *calloc(size_t count, size_t size) { return is_refused() ? 0 : __libc_calloc(count, size); }

void *realloc(void *old, size_t size) { return is_refused() ? 0 : __libc_realloc(old, size); }

void *aligned_alloc(size_t align, size_t size) { return is_refused() ? 0 : __libc_memalign(align, size); }

void *memalign(size_t align, size_t size) { return is_refused() ? 0 : __libc_memalign(align, size); }

int posix_memalign(void **at, size_t align, size_t size) {
  void *got = is_refused() ? 0 : __libc_memalign(align, size);
  if (!got) return NO_MEMORY;
  *at = got;
  return 0;
}

/* What a thread is to do, and the number of its start. */
static struct work {
  void *(*body)(void *);
  void *argument;
  long start;
} works[THREADS];

static void *begin_thread(void *at) {
  struct work *work = at;
  self = work->start;
  return work->body(work->argument);
}

int pthread_create(void *thread, const void *attributes, void *(*body)(void *), void *argument) {
  int (*create)(void *, const void *, void *(*)(void *), void *) = dlsym(NEXT, "pthread_create");
  unsigned long start = __atomic_fetch_add(&starts, 1, __ATOMIC_SEQ_CST);
  if (start < 64 && (refused_threads >> start & 1)) return TRY_AGAIN;
  if (start >= THREADS) return create(thread, attributes, body, argument);
  works[start] = (struct work){body, argument, (long)start};
  return create(thread, attributes, begin_thread, &works[start]);
}
