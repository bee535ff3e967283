/* Lets the program that it is loaded into fail to have the system keep what was written, with EIO, as a disk does that is
   broken, or a file system that keeps the bytes elsewhere.

       LD_PRELOAD=./fail_sync.so aiger aigtoaig some.aag some.aig

   Nothing is included and nothing is linked, as for refuse_growth.c. */

extern int *__errno_location(void);

int fdatasync(int file) {
  (void)file;
  *__errno_location() = 5; /* EIO */
  return -1;
}
