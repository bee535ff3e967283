/* Lets one read or one write of the program that it is loaded into fail, and lets each of them move a few bytes only.

       FAIL_READ=3 PIECE=1 FAILED=/tmp/failed LD_PRELOAD=./fail_call.so aiger aigtoaig --ascii < some.aag

   FAIL_READ and FAIL_WRITE are the number of the call that fails, from 1; 0 and nothing fail none. The call answers
   the error ERROR, or EIO; with ERROR=0 it answers that no byte was moved. PIECE is how many bytes a call moves at
   most; 0 and nothing leave that alone. What goes to standard error is let through and not counted, so that the message
   is seen. The file FAILED is made when a call fails, and the file STARTED when the program begins, once it was loaded
   and before its main.

   Nothing is included and nothing is linked, as for refuse_growth.c. */

typedef unsigned long size;
enum { STANDARD_ERROR = 2, INPUT_OUTPUT_ERROR = 5 };

/* the C library's own names for its calls, which this file does not stand in front of */
extern long __read(int file, void *into, size bytes);
extern long __write(int file, const void *from, size bytes);

extern char *getenv(const char *name);
extern int creat(const char *name, unsigned mode);
extern int close(int file);
extern int *__errno_location(void);

static size reads, writes;

static size number(const char *name, size otherwise) {
  const char *text = getenv(name);
  size found = 0;
  if (!text) return otherwise;
  while (*text >= '0' && *text <= '9') found = found * 10 + (size)(*text++ - '0');
  return found;
}

static void mark(const char *variable) {
  const char *name = getenv(variable);
  if (name) close(creat(name, 0644));
}

__attribute__((constructor)) static void started(void) {
  mark("STARTED");
}

/* the answer of a call that fails */
static long failed(void) {
  int error = (int)number("ERROR", INPUT_OUTPUT_ERROR);
  mark("FAILED");
  *__errno_location() = error;
  return error ? -1 : 0;
}

static size piece_of(size bytes) {
  size most = number("PIECE", 0);
  return most && most < bytes ? most : bytes;
}

long read(int file, void *into, size bytes) {
  if (++reads == number("FAIL_READ", 0)) return failed();
  return __read(file, into, piece_of(bytes));
}

long write(int file, const void *from, size bytes) {
  if (file == STANDARD_ERROR) return __write(file, from, bytes);
  if (++writes == number("FAIL_WRITE", 0)) return failed();
  return __write(file, from, piece_of(bytes));
}
