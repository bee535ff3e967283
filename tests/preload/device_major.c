/* Lets the program that it is loaded into see its open files on a device with another major number: 0 as where a file
   system has no disk of its own, or 8 as on a disk.

       MAJOR=0 LD_PRELOAD=./device_major.so aiger aigtoaig some.aag some.aig

   Nothing is included and nothing is linked, as for refuse_growth.c. */

extern char *getenv(const char *name);
extern void *dlsym(void *library, const char *name);

/* the place of the number among those of 32 bits of a struct statx, and the library behind this one */
enum { DEVICE_MAJOR = 34 };
static void *const NEXT = (void *)-1;

typedef int call(int, const char *, int, unsigned, unsigned *);

int statx(int folder, const char *name, int flags, unsigned mask, unsigned *into) {
  const char *major = getenv("MAJOR");
  int answer = ((call *)dlsym(NEXT, "statx"))(folder, name, flags, mask, into);
  if (answer == 0 && major) into[DEVICE_MAJOR] = (unsigned)(*major - '0');
  return answer;
}
