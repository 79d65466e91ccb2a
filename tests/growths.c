// Preloaded by tests/growths. It counts the growths of a process, the calls that ask for memory, refuses the one whose number
// is in GROWTH, and with GROWTH_ON all later ones too, and writes to the file at GROWTH_TOLD who asked for the first of them: the
// program, or the library by its name. To the file at GROWTH_COUNT it adds a byte for each, as a program may end without telling a library.
#define _GNU_SOURCE
#include <dlfcn.h>
#include <errno.h>
#include <fcntl.h>
#include <stdatomic.h>
#include <stdlib.h>
#include <string.h>
#include <sys/syscall.h>
#include <unistd.h>

// The C library's own, under the names that a preloaded file doesn't take from them.
void *__libc_malloc(size_t);
void *__libc_calloc(size_t, size_t);
void *__libc_realloc(void *, size_t);
void *__libc_memalign(size_t, size_t);

static atomic_ulong growths;

// Writes a text to a file of its own, or behind what it has, where there is a path. It asks for no memory itself.
static void tell(const char *path, int how, const char *text) {
  int file = path ? open(path, O_WRONLY | O_CREAT | how | O_CLOEXEC, 0600) : -1;
  if (file < 0 || syscall(SYS_write, file, text, strlen(text)) < 0) abort();
  close(file);
}

// Tells who asked, by the address that the call returns to.
static void tell_caller(void *caller) {
  Dl_info from;
  const char *name = dladdr(caller, &from) && from.dli_fname ? from.dli_fname : "?";
  const char *slash = strrchr(name, '/');
  tell(getenv("GROWTH_TOLD"), O_TRUNC, slash ? slash + 1 : name);
}

// Whether this growth is one to refuse.
static int is_refused(void *caller) {
  const char *text = getenv("GROWTH");
  unsigned long growth = atomic_fetch_add(&growths, 1) + 1;
  if (getenv("GROWTH_COUNT")) tell(getenv("GROWTH_COUNT"), O_APPEND, ".");
  if (!text) return 0;
  unsigned long number = strtoul(text, NULL, 10);
  if (growth < number || (growth > number && !getenv("GROWTH_ON"))) return 0;
  if (growth == number) tell_caller(caller);
  errno = ENOMEM;
  return 1;
}

#define CALLER __builtin_return_address(0)

void *malloc(size_t size) { return is_refused(CALLER) ? NULL : __libc_malloc(size); }

void *calloc(size_t count, size_t size) { return is_refused(CALLER) ? NULL : __libc_calloc(count, size); }

void *realloc(void *old, size_t size) { return is_refused(CALLER) ? NULL : __libc_realloc(old, size); }

void *aligned_alloc(size_t alignment, size_t size) {
  return is_refused(CALLER) ? NULL : __libc_memalign(alignment, size);
}

int posix_memalign(void **made, size_t alignment, size_t size) {
  if (is_refused(CALLER)) return ENOMEM;
  void *block = __libc_memalign(alignment, size);
  if (!block) return ENOMEM;
  *made = block;
  return 0;
}
