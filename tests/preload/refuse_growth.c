/* Refuses one growth of memory of the program that it is loaded into, the one numbered REFUSE (from 1; 0 refuses none),
   and makes the file REFUSED when it does, so that a test sees whether there was such a growth.

       REFUSE=3 REFUSED=/tmp/refused LD_PRELOAD=./refuse_growth.so aiger aigtoaig --ascii < some.aag

   A growth is a call of malloc, calloc, realloc, aligned_alloc or posix_memalign; the C library answers those that are
   not refused. Nothing is included and nothing is linked, so this compiles where the C library's headers are missing:
   clang -O1 -fno-builtin -shared -fPIC -nostdinc -nostdlib -o refuse_growth.so refuse_growth.c */

typedef unsigned long size;
#define NOTHING ((void *)0)

/* the C library's own names for its calls, which this file does not stand in front of */
extern void *__libc_malloc(size bytes);
extern void *__libc_calloc(size count, size bytes);
extern void *__libc_realloc(void *old, size bytes);
extern void *__libc_memalign(size alignment, size bytes);

extern char *getenv(const char *name);
extern int creat(const char *name, unsigned mode);
extern int close(int file);

static size asked;

static size chosen(void) {
  const char *text = getenv("REFUSE");
  size number = 0;
  while (text && *text >= '0' && *text <= '9') number = number * 10 + (size)(*text++ - '0');
  return number;
}

static int is_refused(void) {
  const char *name;
  if (++asked != chosen()) return 0;
  name = getenv("REFUSED");
  if (name) close(creat(name, 0644));
  return 1;
}

void *malloc(size bytes) { return is_refused() ? NOTHING : __libc_malloc(bytes); }

void *calloc(size count, size bytes) { return is_refused() ? NOTHING : __libc_calloc(count, bytes); }

void *realloc(void *old, size bytes) { return is_refused() ? NOTHING : __libc_realloc(old, bytes); }

void *aligned_alloc(size alignment, size bytes) { return is_refused() ? NOTHING : __libc_memalign(alignment, bytes); }

int posix_memalign(void **into, size alignment, size bytes) {
  void *made = is_refused() ? NOTHING : __libc_memalign(alignment, bytes);
  if (!made) return 12; /* ENOMEM */
  *into = made;
  return 0;
}
