"""The library that is loaded before the built program, or before tests, and refuses them threads, memory, room in a
connection and the disk, and breaks up their standard streams."""

import os
import subprocess

# A pthread_create whose call number THREAD is refused, once standard input has ended. And a malloc and a realloc,
# counted together, of which are refused the calls from number FIRST through LAST, and one in so many, drawn by SEED, as
# stands in the first eight bytes of the file that is the descriptor ODDS, where there is one; 0 there refuses none.
# Each is told by an x on the descriptor TELL. Where there is MARKED, only those between the marks of a test count;
# marks are requests of sizes that nothing else asks for, and a third such size tells by an m that a call has said so.
# And a send that takes ROOM bytes in all, of the one connection that there is. And an fdatasync that fails after the
# first SETTLED calls, and an fsync after the first NAMED ones. And a read of standard input and a write to standard
# output of at most PIECE bytes, of which each second call is interrupted where there is INTERRUPTED. Of the writes one
# fails once WRITTEN bytes were taken, or takes nothing where there is TAKES_NOTHING; after that they go on. It declares
# what it calls: the toolchain's compiler comes without the C library's headers.
SOURCE = r"""
typedef unsigned long size_t;
extern void *dlsym(void *, const char *);
extern char *getenv(const char *);
extern long atol(const char *);
extern void *mmap(void *, size_t, int, int, int, long);
extern void *memcpy(void *, const void *, size_t);
extern long read(int, void *, size_t);
extern long write(int, const void *, size_t);
extern void abort(void);
extern int *__errno_location(void);

#define RTLD_NEXT ((void *)-1l)
#define PROT_READ 1
#define MAP_SHARED 1
#define EINTR 4
#define EIO 5
#define EAGAIN 11
#define ENOMEM 12
#define EPIPE 32
#define MAY_BE_REFUSED 1000003
#define MAY_NOT_BE 1000033
#define WAS_REFUSED 1000037

static long number(const char *name) {
  const char *it = getenv(name);
  return it ? atol(it) : 0;
}

int pthread_create(void *thread, const void *how, void *(*start)(void *), void *given) {
  static long calls;
  typedef int create(void *, const void *, void *(*)(void *), void *);
  create *next = (create *)dlsym(RTLD_NEXT, "pthread_create");
  char byte;
  if (++calls != number("THREAD")) return next(thread, how, start, given);
  while (read(0, &byte, 1) > 0) {}
  return EAGAIN;
}

/* The file is mapped by the first call, when there is one thread. */
static unsigned long odds(void) {
  static const volatile unsigned long *mapped;
  if (!mapped) {
    if (!getenv("ODDS")) return 0;
    void *it = mmap(0, sizeof *mapped, PROT_READ, MAP_SHARED, number("ODDS"), 0);
    if (it == (void *)-1l) abort();
    mapped = it;
  }
  return *mapped;
}

static unsigned long drawn(unsigned long call) {
  unsigned long it = number("SEED") + call * 0x9e3779b97f4a7c15ul;
  it = (it ^ it >> 30) * 0xbf58476d1ce4e5b9ul;
  it = (it ^ it >> 27) * 0x94d049bb133111ebul;
  return it ^ it >> 31;
}

static void tell(const char *it) {
  if (write(number("TELL"), it, 1) != 1) abort();
}

static int counts(size_t size) {
  static int between;
  if (!getenv("MARKED")) return 1;
  if (size == MAY_BE_REFUSED) between = 1;
  else if (size == MAY_NOT_BE) between = 0;
  else if (size == WAS_REFUSED) tell("m");
  else return between;
  return 0;
}

static int is_refused(size_t size) {
  static long calls;
  if (!counts(size)) return 0;
  long call = __atomic_add_fetch(&calls, 1, __ATOMIC_SEQ_CST);
  unsigned long most = odds();
  int is_drawn = most && drawn(call) % most == 0;
  if (!is_drawn && (call < number("FIRST") || call > number("LAST"))) return 0;
  tell("x");
  *__errno_location() = ENOMEM;
  return 1;
}

void *malloc(size_t size) {
  void *(*next)(size_t) = (void *(*)(size_t))dlsym(RTLD_NEXT, "malloc");
  return is_refused(size) ? 0 : next(size);
}

void *realloc(void *old, size_t size) {
  void *(*next)(void *, size_t) = (void *(*)(void *, size_t))dlsym(RTLD_NEXT, "realloc");
  return is_refused(size) ? 0 : next(old, size);
}

long send(int socket, const void *bytes, size_t count, int flags) {
  static long taken;
  typedef long transmit(int, const void *, size_t, int);
  transmit *next = (transmit *)dlsym(RTLD_NEXT, "send");
  long room = getenv("ROOM") ? number("ROOM") - taken : (long)count, took;
  if (count && room <= 0) {
    *__errno_location() = EPIPE;
    return -1;
  }
  took = next(socket, bytes, room < (long)count ? (size_t)room : count, flags);
  if (took > 0) taken += took;
  return took;
}

static size_t piece(size_t count) {
  static long most;
  if (!most) most = getenv("PIECE") ? number("PIECE") : -1;
  return most > 0 && (size_t)most < count ? (size_t)most : count;
}

static int is_interrupted(long *calls) {
  static int may_be;
  if (!may_be) may_be = getenv("INTERRUPTED") ? 1 : -1;
  if (may_be < 0 || ++*calls % 2) return 0;
  *__errno_location() = EINTR;
  return 1;
}

/* What comes in pieces is read ahead, so that a piece costs no call of the system. */
long read(int file, void *bytes, size_t count) {
  typedef long fill(int, void *, size_t);
  static fill *next;
  static char held[65536];
  static long from, to, calls;
  if (!next) next = (fill *)dlsym(RTLD_NEXT, "read");
  if (file != 0 || piece(sizeof held) == sizeof held) return next(file, bytes, count);
  if (is_interrupted(&calls)) return -1;
  if (from == to) {
    from = 0, to = next(0, held, sizeof held);
    if (to < 0) return to = 0, -1;
  }
  count = piece(count) < (size_t)(to - from) ? piece(count) : (size_t)(to - from);
  memcpy(bytes, held + from, count);
  from += count;
  return count;
}

long write(int file, const void *bytes, size_t count) {
  typedef long put(int, const void *, size_t);
  static long taken, calls;
  static int has_failed;
  put *next = (put *)dlsym(RTLD_NEXT, "write");
  if (file != 1) return next(file, bytes, count);
  if (is_interrupted(&calls)) return -1;
  count = piece(count);
  if (getenv("WRITTEN") && !has_failed) {
    if (taken == number("WRITTEN")) {
      has_failed = 1;
      *__errno_location() = EIO;
      return getenv("TAKES_NOTHING") ? 0 : -1;
    }
    if (taken + (long)count > number("WRITTEN")) count = number("WRITTEN") - taken;
  }
  long took = next(1, bytes, count);
  if (took > 0) taken += took;
  return took;
}

static int settled(const char *call, const char *most, long *calls, int file) {
  typedef int settle(int);
  if (!getenv(most) || ++*calls <= number(most)) return ((settle *)dlsym(RTLD_NEXT, call))(file);
  *__errno_location() = EIO;
  return -1;
}

int fdatasync(int file) {
  static long calls;
  return settled("fdatasync", "SETTLED", &calls, file);
}

int fsync(int file) {
  static long calls;
  return settled("fsync", "NAMED", &calls, file);
}
"""


def preloaded(folder):
    """The library of that, compiled into a folder."""
    library = os.path.join(folder, "preloaded.so")
    # `rt doc` names a file beside the folder toolchain/bin.
    guide = subprocess.run(["rt", "doc"], capture_output=True, text=True, check=True).stdout.strip()
    toolchain = f"{os.path.dirname(guide)}/toolchain/bin"
    links = ["-shared", "-fPIC", "-nostdinc", "-nostdlib", f"-fuse-ld={toolchain}/ld.lld"]
    subprocess.run(
        [f"{toolchain}/clang", "-O1", *links, "-o", library, "-x", "c", "-"], input=SOURCE.encode(), check=True
    )
    return library


def naming(library, count):
    """How a program is run for which the disk takes the names of so many folders, and of no more."""
    return {"env": {"LD_PRELOAD": library, "NAMED": str(count)}}
