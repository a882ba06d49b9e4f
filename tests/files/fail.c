/* Loaded before the C library, this makes calls on files fail, come late, or be the last ones of a program.
 *
 *   FAIL=NAME:N:CODE    the Nth call of this name fails with this error number, from 1 on; each one where N is 0. Where CODE is
 *                       0, `pread` finds the end of the file
 *   KILL=N              the program is killed before its Nth call, of whatever name
 *   LATE=SEED           each call comes up to two milliseconds late, by chance
 *   NFS=1               only a file that is open for writing can be locked so that nobody else may
 *   COUNTS=PATH         at the end the file has a line for each name, NAME CALLS
 *
 * The names are those of `names`; of `open` those calls count that may write, and of `write` those to the files so opened.
 * It names no header, so that a compiler without the C library's headers makes it. */

typedef unsigned long size_t;
typedef long ssize_t;

extern char *getenv(const char *);
extern unsigned long strtoul(const char *, char **, int);
extern size_t strlen(const char *);
extern int strncmp(const char *, const char *, size_t);
extern void *dlsym(void *, const char *);
extern int dprintf(int, const char *, ...);
extern int *__errno_location(void);
extern int fcntl(int, int, ...);
extern int kill(int, int);
extern int getpid(void);
extern int usleep(unsigned);

#define NEXT ((void *)-1L)

enum { OPEN, WRITE, FLOCK, FSYNC, FCHMOD, RENAME, UNLINK, PREAD, CALLS };
enum { ACCESS = 3, READ_ONLY = 0, GET_FLAGS = 3, WRITE_NEW = 01 | 0100 | 01000, NOT_OPEN = 9, FILES = 4096 };

static const char *const names[CALLS] = {"open", "write", "flock", "fsync", "fchmod", "rename", "unlink", "pread"};
static unsigned long calls[CALLS], all, killed;
static int failing = -1, code, is_late, is_nfs;
static unsigned long failing_at, chance;
/* The files that were opened to be written. */
static char is_output[FILES];

__attribute__((constructor)) static void begin(void) {
  const char *fail = getenv("FAIL"), *late = getenv("LATE"), *kills = getenv("KILL");
  char *colon;
  for (int name = 0; fail && name < CALLS; name++) {
    size_t length = strlen(names[name]);
    if (strncmp(fail, names[name], length) == 0 && fail[length] == ':') {
      failing = name;
      failing_at = strtoul(fail + length + 1, &colon, 10);
      code = (int)strtoul(colon + 1, 0, 10);
    }
  }
  killed = kills ? strtoul(kills, 0, 10) : 0;
  is_late = late != 0;
  chance = late ? strtoul(late, 0, 10) * 2654435761UL + 1 : 0;
  is_nfs = getenv("NFS") != 0;
}

/* A call comes: 1 where it fails. */
static int fails(int name) {
  if (__atomic_add_fetch(&all, 1, __ATOMIC_SEQ_CST) == killed) kill(getpid(), 9);
  if (is_late) {
    chance = chance * 6364136223846793005UL + 1442695040888963407UL;
    usleep((unsigned)(chance >> 33) % 2000);
  }
  unsigned long number = __atomic_add_fetch(&calls[name], 1, __ATOMIC_SEQ_CST);
  if (name != failing || (failing_at != 0 && number != failing_at)) return 0;
  *__errno_location() = code;
  return 1;
}

static int is_noted(int file) { return file >= 0 && file < FILES && is_output[file]; }

int open(const char *path, int flags, int mode) {
  int (*next)(const char *, int, int) = dlsym(NEXT, "open");
  int may_write = (flags & ACCESS) != READ_ONLY;
  if (may_write && fails(OPEN)) return -1;
  int file = next(path, flags, mode);
  if (file >= 0 && file < FILES) is_output[file] = may_write;
  return file;
}

ssize_t write(int file, const void *bytes, size_t count) {
  ssize_t (*next)(int, const void *, size_t) = dlsym(NEXT, "write");
  return is_noted(file) && fails(WRITE) ? -1 : next(file, bytes, count);
}

ssize_t pread(int file, void *bytes, size_t count, long offset) {
  ssize_t (*next)(int, void *, size_t, long) = dlsym(NEXT, "pread");
  return fails(PREAD) ? (code ? -1 : 0) : next(file, bytes, count, offset);
}

int flock(int file, int how) {
  int (*next)(int, int) = dlsym(NEXT, "flock");
  if (fails(FLOCK)) return -1;
  if (is_nfs && (fcntl(file, GET_FLAGS) & ACCESS) == READ_ONLY) {
    *__errno_location() = NOT_OPEN;
    return -1;
  }
  return next(file, how);
}

int fsync(int file) {
  int (*next)(int) = dlsym(NEXT, "fsync");
  return fails(FSYNC) ? -1 : next(file);
}

int fchmod(int file, unsigned mode) {
  int (*next)(int, unsigned) = dlsym(NEXT, "fchmod");
  return fails(FCHMOD) ? -1 : next(file, mode);
}

int rename(const char *from, const char *to) {
  int (*next)(const char *, const char *) = dlsym(NEXT, "rename");
  return fails(RENAME) ? -1 : next(from, to);
}

int unlink(const char *path) {
  int (*next)(const char *) = dlsym(NEXT, "unlink");
  return fails(UNLINK) ? -1 : next(path);
}

/* The program ends here, and no destructor runs. */
void _exit(int status) {
  void (*leave)(int) = dlsym(NEXT, "_exit");
  int (*next)(const char *, int, int) = dlsym(NEXT, "open");
  const char *path = getenv("COUNTS");
  int file = path ? next(path, WRITE_NEW, 0644) : -1;
  for (int name = 0; file >= 0 && name < CALLS; name++) dprintf(file, "%s %lu\n", names[name], calls[name]);
  leave(status);
  __builtin_unreachable();
}
