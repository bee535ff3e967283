/* SPDX-License-Identifier: MIT */
/* The peer of bench/run.py: the program's conversions and simulations in C that was written for speed alone.

       cc -O3 -march=native -o bench/out/fast bench/fast.c
       bench/out/fast aigtoaig [--ascii] [--strip] [--keep-map | --undo-map] [SOURCE [TARGET]]
       bench/out/fast aigsim [--batch] MODEL STIMULUS
       bench/out/fast aigunroll --frames K [--ascii] [SOURCE [TARGET]]

   It writes the program's bytes, of circuits with inputs, latches that start at 0, outputs and gates. It is strict about
   the form and says little of what is wrong. A file is mapped whole; digits are read eight at a time; tables have an
   entry for each variable up to the largest, or a hash where few are used; a gate waits in the list of one operand, the
   ready ones stand in a bitmap; a batch takes 256 runs as two planes of 256 bits a variable. */
#define _GNU_SOURCE
#include <fcntl.h>
#include <stdint.h>
#include <stdio.h>
#include <stdlib.h>
#include <string.h>
#include <sys/mman.h>
#include <sys/stat.h>
#include <unistd.h>
#ifdef __AVX512BW__
#include <immintrin.h>
#endif
typedef uint8_t u8; typedef uint32_t u32; typedef uint64_t u64;
#define likely(x) __builtin_expect(!!(x), 1)
#define unlikely(x) __builtin_expect(!!(x), 0)

static void die(const char *m) { fprintf(stderr, "fast: %s\n", m); exit(1); }
/* zeroed pages, huge where large */
static void *zalloc(size_t n) {
  if (n < 64) n = 64;
  if (n < (1u << 20)) { void *p = calloc(n, 1); if (!p) die("out of memory"); return p; }
  void *p = mmap(0, n, PROT_READ | PROT_WRITE, MAP_PRIVATE | MAP_ANONYMOUS | MAP_NORESERVE, -1, 0);
  if (p == MAP_FAILED) die("out of memory");
  madvise(p, n, MADV_HUGEPAGE);
  return p;
}

/* ------------------------------------------------------------- whole files, padded */
typedef struct { const u8 *p; size_t n; } Text;
static Text slurp(const char *name) {
  Text t; struct stat st; int fd = strcmp(name, "-") ? open(name, O_RDONLY) : 0;
  if (fd < 0) die("cannot read");
  if (!fstat(fd, &st) && S_ISREG(st.st_mode) && st.st_size && (st.st_size & 4095) && (st.st_size & 4095) < 4096 - 64) {
    t.n = st.st_size;                    /* the last page's rest is zero: padding for SWAR */
    t.p = mmap(0, t.n, PROT_READ, MAP_PRIVATE | MAP_POPULATE, fd, 0);
    if (t.p == MAP_FAILED) die("cannot read");
    close(fd); return t;
  }
  size_t cap = st.st_size > 0 ? st.st_size + 4096 : 1 << 16; u8 *b = malloc(cap); t.n = 0;
  for (;;) {
    if (cap - t.n < 128) b = realloc(b, cap *= 2);
    ssize_t r = read(fd, b + t.n, cap - t.n - 64);
    if (r < 0) die("cannot read");
    if (!r) break;
    t.n += r;
  }
  memset(b + t.n, 0, 64); t.p = b; return t;
}
static int outfd = 1; static const char *outname;
static u8 obuf[1 << 18]; static u8 *op = obuf; static size_t olim = sizeof obuf;   /* FAST_BLOCK=n: smaller blocks */
static int onlyhash;                   /* FAST_HASH=1: no table sized by M at all */
static void oopen(void) {
  if (outname && strcmp(outname, "-") && outfd == 1) { outfd = open(outname, O_WRONLY | O_CREAT | O_TRUNC, 0666); if (outfd < 0) die("cannot write"); }
}
static void wall(const u8 *p, size_t n) { oopen(); while (n) { ssize_t r = write(outfd, p, n); if (r <= 0) die("cannot write"); p += r; n -= r; } }
static void oflush(void) { wall(obuf, op - obuf); op = obuf; }
static inline void room(size_t n) { if (unlikely((size_t) (obuf + olim - op) < n)) oflush(); }
static void oput(const void *s, size_t n) {
  if (n > olim / 2) { oflush(); wall(s, n); return; }
  room(n); memcpy(op, s, n); op += n;
}
static char dig4[40000];
static void tables(void) { for (int i = 0; i < 10000; i++) { char *d = dig4 + 4 * i; d[0] = '0' + i / 1000; d[1] = '0' + i / 100 % 10; d[2] = '0' + i / 10 % 10; d[3] = '0' + i % 10; } }
static inline u8 *pnum(u8 *p, u32 v) {
  if (v < 10000) {
    int n = v < 10 ? 1 : v < 100 ? 2 : v < 1000 ? 3 : 4; u32 w;
    memcpy(&w, dig4 + 4 * v, 4); w >>= 8 * (4 - n); memcpy(p, &w, 4); return p + n; }
  if (v < 100000000) { u32 h = v / 10000, l = v % 10000; p = pnum(p, h); memcpy(p, dig4 + 4 * l, 4); return p + 4; }
  u32 h = v / 100000000, l = v % 100000000; p = pnum(p, h);
  memcpy(p, dig4 + 4 * (l / 10000), 4); memcpy(p + 4, dig4 + 4 * (l % 10000), 4); return p + 8;
}

/* ------------------------------------------------------------- reading */
typedef struct {
  u32 M, I, L, O, A, N;              /* N = I+L+A */
  u32 *in, *lv, *ln, *out, *g;       /* g: lhs,r0,r1,list (ASCII) or r0,r1 (binary) */
  int bin, hasc; const u8 *tail, *com; size_t ntail, ncom;  /* canonical tail bytes up to `c`, comment */
} Ckt;
static const u8 *P, *E;
static inline __attribute__((always_inline)) const u8 *digits(const u8 *p, u64 *v) {   /* p at a digit; any length */
  u64 w; memcpy(&w, p, 8);
  u64 nd = ((w & 0xf0f0f0f0f0f0f0f0ull) ^ 0x3030303030303030ull) | (((w + 0x0606060606060606ull) & 0xf0f0f0f0f0f0f0f0ull) ^ 0x3030303030303030ull);
  if (unlikely(!nd)) {                 /* eight digits or more */
    u64 x = 0; int over = 0;
    while ((u8) (*p - '0') < 10) { x = 10 * x + (*p++ - '0'); if (x >> 40) { over = 1; x = 1ull << 41; } }
    (void) over; *v = x; return p; }
  int n = __builtin_ctzll(nd) >> 3;
  if (unlikely(!n)) die("number expected");
  w <<= 64 - 8 * n;                    /* leading bytes zero: '0'-0x30 below */
  w &= 0x0f0f0f0f0f0f0f0full;
  w = (w * 10 + (w >> 8)) & 0x00ff00ff00ff00ffull;
  w = (w * 100 + (w >> 16)) & 0x0000ffff0000ffffull;
  w = (w * 10000 + (w >> 32)) & 0xffffffffull;
  *v = w; return p + n;
}
static inline u32 num_sp(void) {
  u64 v; P = digits(P, &v); if (unlikely(*P != ' ')) die("space expected");
  P++; while (unlikely(*P == ' ')) P++;
  if (unlikely(v > 4294967295u)) die("number too large");
  return v;
}
static inline u32 num_nl(void) {
  u64 v; P = digits(P, &v);
  if (unlikely(*P != '\n')) { while (*P == ' ') P++; if (*P == '\r') P++; if (P >= E) { if (P > E) die("early end"); P--; } else if (*P != '\n') die("bad line"); }
  P++; if (unlikely(v > 4294967295u)) die("number too large");
  return v;
}
static inline int taken(u64 *b, u32 v) { u64 m = 1ull << (v & 63); int r = (b[v >> 6] & m) != 0; b[v >> 6] |= m; return r; }
static inline u32 delta(void) {
  u32 c = *P++; if (likely(c < 128)) return c;
  u32 d = *P++; u64 v = (c & 127) | (u64) (d & 127) << 7; if (d < 128) return v;
  for (int s = 14; ; s += 7) { if (s > 28) die("bad delta"); d = *P++; v |= (u64) (d & 127) << s; if (d < 128) break; }
  if (v >> 32) die("bad delta");
  return v;
}
static Ckt rd(const char *name) {
  Ckt c; memset(&c, 0, sizeof c); Text t = slurp(name); P = t.p; E = P + t.n;
  if (t.n < 4 || P[0] != 'a' || (P[1] != 'a' && P[1] != 'i') || P[2] != 'g' || P[3] != ' ') die("not an AIGER file");
  c.bin = P[1] == 'i'; P += 4; while (*P == ' ') P++;
  c.M = num_sp(); c.I = num_sp(); c.L = num_sp(); c.O = num_sp(); c.A = num_nl();
  u64 n = (u64) c.I + c.L + c.A; if (c.M > 2147483647u || c.O > 2147483647u || n > c.M || (c.bin && n != c.M)) die("bad header");
  c.N = n; u32 top = 2 * c.M + 1;
  if ((u64) c.L + c.O > t.n || (!c.bin && n > t.n) || (u64) c.A > t.n) die("early end");
  c.in = zalloc(4ul * c.I); c.lv = zalloc(4ul * c.L); c.ln = zalloc(4ul * c.L); c.out = zalloc(4ul * c.O);
  c.g = zalloc((c.bin ? 8ul : 16ul) * c.A + 64);
#define VAR(l) do { if (unlikely((l) < 2 || ((l) & 1))) die("variable expected"); if (unlikely((l) > top)) die("literal range"); } while (0)
#define LIT(l) do { if (unlikely((l) > top)) die("literal range"); } while (0)
#define MORE do { if (unlikely(P >= E)) die("early end"); } while (0)
  if (c.bin) {
    for (u32 i = 0; i < c.I; i++) c.in[i] = 2 * (i + 1);
    for (u32 i = 0; i < c.L; i++) { MORE; c.lv[i] = 2 * (c.I + i + 1); c.ln[i] = num_nl(); LIT(c.ln[i]); }
    for (u32 i = 0; i < c.O; i++) { MORE; c.out[i] = num_nl(); LIT(c.out[i]); }
    u32 lhs = 2 * (c.I + c.L + 1), *g = c.g;
    for (u32 i = 0; i < c.A; i++, lhs += 2, g += 2) {
      if (unlikely(P + 2 > E)) die("early end");
      u32 d = delta(), r = lhs - d; if (unlikely(d - 1 >= lhs)) die("bad delta");
      d = delta(); if (unlikely(d > r)) die("bad delta");
      g[0] = r; g[1] = r - d; }
    if (P > E) die("early end");
  } else {
    for (u32 i = 0; i < c.I; i++) { MORE; c.in[i] = num_nl(); VAR(c.in[i]); }
    for (u32 i = 0; i < c.L; i++) { MORE; c.lv[i] = num_sp(); c.ln[i] = num_nl(); VAR(c.lv[i]); LIT(c.ln[i]); }
    for (u32 i = 0; i < c.O; i++) { MORE; c.out[i] = num_nl(); LIT(c.out[i]); }
    u32 *g = c.g, bad = 0, mx = 0;
    const u8 *e = E - 1;
    for (u32 i = 0; i < c.A; i++, g += 4) {
      if (unlikely(P >= e)) die("early end");
      u64 l, a, b; const u8 *p = digits(P, &l), *q = p, *z = p;
      if (likely(*p == ' ' && (u8) (p[1] - '0') < 10)) { q = digits(p + 1, &a); if (likely(*q == ' ' && (u8) (q[1] - '0') < 10)) z = digits(q + 1, &b); }
      if (likely(*p == ' ' && *q == ' ' && *z == '\n')) P = z + 1;
      else { l = num_sp(); a = num_sp(); b = num_nl(); }
      bad |= (l & 1) | (l < 2); mx |= (l > top) | (a > top) | (b > top);
      g[0] = l; g[1] = a; g[2] = b; }
    if (bad || mx) die("bad gate");
  }
  /* tail: symbols are checked, then kept as text where they are canonical */
  const u8 *s = P; u64 *seen[3] = { 0, 0, 0 }; u32 cnt[3] = { c.I, c.L, c.O };
  c.tail = s; c.ntail = 0;
  while (P < E) {
    if (*P == 'c') { c.ntail = P - s; const u8 *q = P + 1; while (q < E && *q == ' ') q++; if (q < E && *q == '\r') q++;
      if (q < E && *q != '\n') die("bad symbol line");
      c.hasc = 1; c.com = q < E ? q + 1 : E; c.ncom = E - c.com; return c; }
    int k = *P == 'i' ? 0 : *P == 'l' ? 1 : *P == 'o' ? 2 : 3; u64 v;
    if (k > 2 || (u8) (P[1] - '0') > 9) die("bad symbol line");
    P = digits(P + 1, &v); if (P >= E || *P != ' ') die("bad symbol line");
    if (v >= cnt[k]) die("symbol position");
    if (!seen[k]) seen[k] = zalloc(cnt[k] / 8 + 8);
    if (taken(seen[k], v)) die("symbol twice");
    P = memchr(P, '\n', E - P); if (!P) die("want of a last LF is not handled here"); P++;
  }
  c.ntail = E - s;
  return c;
}

/* ------------------------------------------------------------- ready set: 64-ary bitmap tree */
typedef struct { u64 *l[6]; int h; } Set;
static void set_make(Set *s, u32 n) { s->h = 0; do { n = (n + 63) / 64; s->l[s->h++] = zalloc(8ul * n + 8); } while (n > 1); }
static inline void set_add(Set *s, u32 k) { for (int h = 0; h < s->h; h++) { u64 *w = s->l[h] + (k >> 6), o = *w; *w = o | 1ull << (k & 63); if (o) return; k >>= 6; } }
static inline int set_pop(Set *s, u32 *k) {
  if (!s->l[s->h - 1][0]) return 0;
  u32 i = 0; for (int h = s->h - 1; h >= 0; h--) i = i << 6 | __builtin_ctzll(s->l[h][i]);
  *k = i;
  for (int h = 0; h < s->h; h++) { u64 *w = s->l[h] + (i >> 6); *w &= ~(1ull << (i & 63)); if (*w) break; i >>= 6; }
  return 1;
}

/* ------------------------------------------------------------- gate order
   t[var].lit = new literal of a placed (or input, latch) variable, else 0; t[var].wait = first
   gate that waits for it.  A gate waits in the list of one operand that is not placed; its
   row holds the list's next, so a release touches one line; gates freed behind the scan
   pointer go through the bitmap.  Gates come out as pairs (larger, smaller) in order. */
typedef struct { u32 lit, wait; } Ent;
typedef struct { u32 *pair; u32 *where; u32 *ln, *out; } Ord;   /* where[k] = place<<1 | s */
static Ord order(Ckt *c, int want_pairs, int want_where) {
  Ord r; memset(&r, 0, sizeof r); u32 A = c->A, base = c->I + c->L + 1;
  r.ln = zalloc(4ul * c->L); r.out = zalloc(4ul * c->O);
  if (c->bin) { memcpy(r.ln, c->ln, 4ul * c->L); memcpy(r.out, c->out, 4ul * c->O); r.pair = c->g;
    if (want_where) { r.where = zalloc(4ul * A); for (u32 k = 0; k < A; k++) r.where[k] = k << 1; }
    return r; }
  u32 *g = c->g, M = c->M, mask = 0;
  int hashed = onlyhash || M / 16 > c->N + 65536;
  if (hashed) {                        /* wild variables: translate to file indices first */
    u32 s = 1024; while (s < 2ul * c->N) s *= 2;
    mask = s - 1; u64 *h = zalloc(8ul * s);
#define H(v) ((u32) (((u64) (v) * 0x9E3779B97F4A7C15ull) >> 32) & mask)
#define INS(v, x) do { u32 v_ = (v), q = H(v_); while (h[q]) { if ((u32) h[q] == v_) die("defined twice"); q = (q + 1) & mask; } h[q] = v_ | (u64) (x) << 32; } while (0)
    for (u32 i = 0; i < c->I; i++) INS(c->in[i] >> 1, i + 1);
    for (u32 i = 0; i < c->L; i++) INS(c->lv[i] >> 1, c->I + i + 1);
    for (u32 k = 0; k < A; k++) { if (k + 16 < A) __builtin_prefetch(&h[H(g[4 * (k + 16)] >> 1)], 1); INS(g[4 * k] >> 1, base + k); }
    u32 bad = 0;
#define GET(l) ({ u32 l_ = (l), v_ = l_ >> 1, x_ = 0; if (v_) { u32 q = H(v_); while (h[q] && (u32) h[q] != v_) q = (q + 1) & mask; x_ = h[q] >> 32; bad |= !x_; } 2 * x_ + (l_ & 1); })
    u32 *ng = zalloc(16ul * A + 64);
    for (u32 i = 0; i < c->L; i++) r.ln[i] = GET(c->ln[i]);
    for (u32 i = 0; i < c->O; i++) r.out[i] = GET(c->out[i]);
    for (u32 k = 0; k < A; k++) {
      if (k + 16 < A) { __builtin_prefetch(&h[H(g[4 * (k + 16) + 1] >> 1)]); __builtin_prefetch(&h[H(g[4 * (k + 16) + 2] >> 1)]); }
      ng[4 * k] = 2 * (base + k); ng[4 * k + 1] = GET(g[4 * k + 1]); ng[4 * k + 2] = GET(g[4 * k + 2]); }
    if (bad) die("not defined");
    g = ng; M = c->N;
  } else { memcpy(r.ln, c->ln, 4ul * c->L); memcpy(r.out, c->out, 4ul * c->O); }
  Ent *t = zalloc(8ul * (M + 1ul)); u32 nx = 2 * base;
  u64 *def = 0;
  if (!hashed) {
    def = zalloc(M / 8 + 16); u32 bad = taken(def, 0);
    for (u32 i = 0; i < c->I; i++) { bad |= taken(def, c->in[i] >> 1); t[c->in[i] >> 1].lit = 2 * (i + 1); }
    for (u32 i = 0; i < c->L; i++) { bad |= taken(def, c->lv[i] >> 1); t[c->lv[i] >> 1].lit = 2 * (c->I + i + 1); }
    for (u32 k = 0; k < A; k++) bad |= taken(def, g[4 * k] >> 1);
    if (bad) die("defined twice");
  } else for (u32 i = 1; i < base; i++) t[i].lit = 2 * i;
  if (want_pairs) r.pair = zalloc(8ul * A + 64);
  if (want_where) r.where = zalloc(4ul * A + 64);
  u32 *pair = r.pair, scan = 0, placed = 0, k; Set ready; ready.h = 0;
#define PRE 16
  for (;;) {
    if (!ready.h || !set_pop(&ready, &k)) {
      if (scan == A) break;
      k = scan++;
      if (k + PRE < A) { u32 *q = g + 4 * (k + PRE); __builtin_prefetch(&t[q[1] >> 1], 1); __builtin_prefetch(&t[q[2] >> 1], 1); __builtin_prefetch(&t[q[0] >> 1], 1); }
    }
    u32 *row = g + 4ul * k, a = row[1], b = row[2], ta = t[a >> 1].lit, tb = t[b >> 1].lit, w = 0;
    if (unlikely(a > 1 && !ta)) w = a; else if (unlikely(b > 1 && !tb)) w = b;
    if (unlikely(w)) {
      if (!ready.h) set_make(&ready, A);
      row[3] = t[w >> 1].wait; t[w >> 1].wait = k + 1; continue; }
    u32 x = (ta | (a & 1)), y = (tb | (b & 1)); u32 s = x < y;
    if (pair) { pair[2 * placed] = s ? y : x; pair[2 * placed + 1] = s ? x : y; }
    if (r.where) r.where[k] = placed << 1 | s;
    placed++;
    Ent *e = t + (row[0] >> 1); u32 q = e->wait; e->lit = nx; nx += 2;
    while (q) {
      u32 j = q - 1, *rj = g + 4ul * j, n = rj[3], a2 = rj[1], b2 = rj[2], w2 = 0;
      if (n) __builtin_prefetch(g + 4ul * (n - 1));
      if (a2 > 1 && !t[a2 >> 1].lit) w2 = a2; else if (b2 > 1 && !t[b2 >> 1].lit) w2 = b2;
      if (w2) { rj[3] = t[w2 >> 1].wait; t[w2 >> 1].wait = q; }
      else { __builtin_prefetch(&t[rj[0] >> 1], 1); set_add(&ready, j); }
      q = n; }
  }
  if (!hashed) { u32 bad = 0;
#define CK(l) bad |= !(def[(l) >> 7] >> ((l) >> 1 & 63) & 1)
    for (u32 i = 0; i < c->L; i++) CK(c->ln[i]);
    for (u32 i = 0; i < c->O; i++) CK(c->out[i]);
    if (bad) die("not defined"); }
  if (placed < A) die("cyclic or not defined");
  for (u32 i = 0; i < c->L; i++) { u32 l = r.ln[i]; r.ln[i] = t[l >> 1].lit | (l & 1); }
  for (u32 i = 0; i < c->O; i++) { u32 l = r.out[i]; r.out[i] = t[l >> 1].lit | (l & 1); }
  return r;
}

/* ------------------------------------------------------------- writing */
static void head5(const char *w, u32 M, u32 I, u32 L, u32 O, u32 A) { room(128); op += sprintf((char *) op, "%s %u %u %u %u %u\n", w, M, I, L, O, A); }
static void symbols(Ckt *c) { oput(c->tail, c->ntail); if (c->ntail && c->tail[c->ntail - 1] != '\n') oput("\n", 1); }
static void wtail(Ckt *c, int strip) { if (strip) return; symbols(c); if (c->hasc) { oput("c\n", 2); oput(c->com, c->ncom); } }
static inline void lines(const u32 *v, u32 n) { for (u32 i = 0; i < n; i++) { room(64); op = pnum(op, v[i]); *op++ = '\n'; } }
static inline u8 *pd(u8 *p, u32 d) { while (d > 127) { *p++ = d | 128; d >>= 7; } *p++ = d; return p; }
static void wascii(Ckt *c, const u32 *in, const u32 *lv, const u32 *ln, const u32 *out, const u32 *g, int bin) {
  head5("aag", c->M, c->I, c->L, c->O, c->A); lines(in, c->I);
  for (u32 i = 0; i < c->L; i++) { room(64); op = pnum(op, lv[i]); *op++ = ' '; op = pnum(op, ln[i]); *op++ = '\n'; }
  lines(out, c->O); u32 lhs = 2 * (c->I + c->L + 1);
  for (u32 k = 0; k < c->A; k++) {
    room(64); u32 a, b;
    if (bin) { a = g[0]; b = g[1]; g += 2; } else { lhs = g[0]; a = g[1]; b = g[2]; g += 4; }
    op = pnum(op, lhs); *op++ = ' '; op = pnum(op, a); *op++ = ' '; op = pnum(op, b); *op++ = '\n'; lhs += 2; }
}
static void wbin(Ckt *c, const u32 *ln, const u32 *out, const u32 *pair) {
  head5("aig", c->N, c->I, c->L, c->O, c->A); lines(ln, c->L); lines(out, c->O);
  u32 lhs = 2 * (c->I + c->L + 1);
  for (u32 k = 0; k < c->A; k++, lhs += 2) { room(64); u32 a = pair[2 * k], b = pair[2 * k + 1]; op = pd(op, lhs - a); op = pd(op, a - b); }
}
static void wmap(Ckt *c, Ord *o) {
  room(128); op += sprintf((char *) op, "c\naigmap 1 %u %u %u %u %d\n", c->M, c->I, c->L, c->A, c->hasc);
  for (u32 i = 0; i < c->I; i++) { room(64); op = pnum(op, c->in[i] >> 1); *op++ = '\n'; }
  for (u32 i = 0; i < c->L; i++) { room(64); op = pnum(op, c->lv[i] >> 1); *op++ = '\n'; }
  for (u32 k = 0; k < c->A; k++) {
    room(64); op = pnum(op, c->bin ? c->I + c->L + 1 + k : c->g[4 * k] >> 1); *op++ = ' '; op = pnum(op, o->where[k] >> 1);
    op[0] = ' '; op[1] = '0' + (o->where[k] & 1); op[2] = '\n'; op += 3; }
  oput("aigmap end\n", 11); if (c->hasc) oput(c->com, c->ncom);
}
/* undo: parse the block, rebuild, order again and compare */
static Ckt undo(Ckt *c) {
  if (!c->bin) die("undo reads binary here");
  const u8 *sE = E; if (!c->hasc || c->ncom < 8 || memcmp(c->com, "aigmap ", 7)) die("no map");
  P = c->com + 7; E = c->com + c->ncom; Ckt r = *c; u32 one = num_sp(); r.M = num_sp(); u32 I = num_sp(), L = num_sp(), A = num_sp(), C = num_nl();
  if (one != 1 || I != c->I || L != c->L || A != c->A || r.M < c->M || C > 1) die("map line 1");
  r.bin = 0; r.in = zalloc(4ul * I); r.lv = zalloc(4ul * L); r.ln = zalloc(4ul * L); r.out = zalloc(4ul * c->O); r.g = zalloc(16ul * A + 64);
  u32 *v = zalloc(4ul * (c->N + 1ul)), *wh = zalloc(4ul * A + 64), n = 0; u64 *pl = zalloc(A / 8 + 16); u32 *pos = zalloc(4ul * A + 64);
  for (u32 i = 0; i < I + L; i++) { MORE; v[++n] = num_nl(); if (v[n] - 1 >= r.M) die("map line"); }
  for (u32 k = 0; k < A; k++) { MORE; u32 w = num_sp(), p = num_sp(), s = num_nl();
    if (w - 1 >= r.M || p >= A || s > 1) die("map line");
    if (taken(pl, p)) die("forged");
    v[I + L + 1 + p] = w; wh[k] = p << 1 | s; pos[p] = k; }
  if (E - P < 11 || memcmp(P, "aigmap end\n", 11)) die("map end");
  P += 11; r.hasc = C; r.com = P; r.ncom = E - P; if (!C && r.ncom) die("forged");
  E = sE;
#define BACK(l) (2 * v[(l) >> 1] + ((l) & 1))
  for (u32 i = 0; i < I; i++) r.in[i] = 2 * v[i + 1];
  for (u32 i = 0; i < L; i++) { r.lv[i] = 2 * v[I + i + 1]; r.ln[i] = BACK(c->ln[i]); }
  for (u32 i = 0; i < c->O; i++) r.out[i] = BACK(c->out[i]);
  for (u32 p = 0; p < A; p++) { u32 k = pos[p], s = wh[k] & 1, a = c->g[2 * p], b = c->g[2 * p + 1];
    if (s && a == b) die("forged");
    r.g[4 * k] = 2 * v[I + L + 1 + p]; r.g[4 * k + 1] = BACK(s ? b : a); r.g[4 * k + 2] = BACK(s ? a : b); }
  Ord o = order(&r, 0, 1);
  if (memcmp(o.where, wh, 4ul * A)) die("forged");
  return r;
}

/* ------------------------------------------------------------- simulation */
#ifdef __AVX512BW__
/* 64x64 bits: out[j] bit i = in[i] bit j */
static inline void tr64(const u64 *in, u64 *out) {
  const __m512i sh = _mm512_broadcast_i32x4(_mm_setr_epi8(0, 8, 1, 9, 2, 10, 3, 11, 4, 12, 5, 13, 6, 14, 7, 15));
  __m512i w[8]; short ix[32];
  for (int b = 0; b < 8; b++) for (int q = 0; q < 4; q++) ix[4 * b + q] = 8 * q + b;
  const __m512i pw = _mm512_loadu_si512(ix);
  for (int g = 0; g < 8; g++) w[g] = _mm512_permutexvar_epi16(pw, _mm512_shuffle_epi8(_mm512_loadu_si512(in + 8 * g), sh));
  __m512i a[8];                        /* 8x8 transpose of qwords */
  for (int i = 0; i < 4; i++) { a[2 * i] = _mm512_unpacklo_epi64(w[2 * i], w[2 * i + 1]); a[2 * i + 1] = _mm512_unpackhi_epi64(w[2 * i], w[2 * i + 1]); }
  __m512i b[8];
  b[0] = _mm512_shuffle_i64x2(a[0], a[2], 0x88); b[1] = _mm512_shuffle_i64x2(a[0], a[2], 0xdd);
  b[2] = _mm512_shuffle_i64x2(a[1], a[3], 0x88); b[3] = _mm512_shuffle_i64x2(a[1], a[3], 0xdd);
  b[4] = _mm512_shuffle_i64x2(a[4], a[6], 0x88); b[5] = _mm512_shuffle_i64x2(a[4], a[6], 0xdd);
  b[6] = _mm512_shuffle_i64x2(a[5], a[7], 0x88); b[7] = _mm512_shuffle_i64x2(a[5], a[7], 0xdd);
  __m512i c[8];                        /* byte column j */
  c[0] = _mm512_shuffle_i64x2(b[0], b[4], 0x88); c[4] = _mm512_shuffle_i64x2(b[0], b[4], 0xdd);
  c[2] = _mm512_shuffle_i64x2(b[1], b[5], 0x88); c[6] = _mm512_shuffle_i64x2(b[1], b[5], 0xdd);
  c[1] = _mm512_shuffle_i64x2(b[2], b[6], 0x88); c[5] = _mm512_shuffle_i64x2(b[2], b[6], 0xdd);
  c[3] = _mm512_shuffle_i64x2(b[3], b[7], 0x88); c[7] = _mm512_shuffle_i64x2(b[3], b[7], 0xdd);
  for (int j = 0; j < 8; j++) { __m512i x = c[j]; for (int k = 7; k >= 0; k--) { out[8 * j + k] = _mm512_movepi8_mask(x); x = _mm512_add_epi8(x, x); } }
}
static inline void expand(u8 *d, u64 p, u64 n, u32 len) {     /* planes of 64 values to characters */
  __m512i v = _mm512_mask_mov_epi8(_mm512_set1_epi8('0'), p, _mm512_set1_epi8('1'));
  v = _mm512_mask_mov_epi8(v, p & n, _mm512_set1_epi8('x'));
  _mm512_mask_storeu_epi8(d, len >= 64 ? ~0ull : (1ull << len) - 1, v);
}
static inline int masks(const u8 *s, u32 len, u64 *p, u64 *n) {
  u64 m = len >= 64 ? ~0ull : (1ull << len) - 1; __m512i v = _mm512_maskz_loadu_epi8(m, s);
  u64 o = _mm512_cmpeq_epi8_mask(v, _mm512_set1_epi8('1')), x = _mm512_cmpeq_epi8_mask(v, _mm512_set1_epi8('x')), z = _mm512_cmpeq_epi8_mask(v, _mm512_set1_epi8('0'));
  *p = o | x; *n = z | x; return (o | x | z) == m;
}
#else
static inline void tr64(const u64 *in, u64 *out) {
  u64 a[64]; memcpy(a, in, 512); u64 m = 0x00000000ffffffffull;
  for (int j = 32; j; j >>= 1, m ^= m << j) for (int k = 0; k < 64; k = ((k | j) + 1) & ~j) { u64 t = ((a[k] >> j) ^ a[k | j]) & m; a[k] ^= t << j; a[k | j] ^= t; }
  memcpy(out, a, 512);
}
static inline void expand(u8 *d, u64 p, u64 n, u32 len) { if (len > 64) len = 64; for (u32 i = 0; i < len; i++) { int a = p >> i & 1, b = n >> i & 1; d[i] = a ? b ? 'x' : '1' : '0'; } }
static inline int masks(const u8 *s, u32 len, u64 *p, u64 *n) {
  u64 a = 0, b = 0; if (len > 64) len = 64;
  for (u32 i = 0; i < len; i++) { if (s[i] == 'x') { a |= 1ull << i; b |= 1ull << i; } else if (s[i] == '1') a |= 1ull << i; else if (s[i] == '0') b |= 1ull << i; else return 0; }
  *p = a; *n = b; return 1;
}
#endif
typedef u64 V __attribute__((vector_size(32)));
static u8 *B;                            /* planes: literal l, may-be-1 at 32 l, may-be-0 at 32 (l^1) */
static u32 *sp;                          /* gate pairs */
static inline void gates256(u32 A, u32 base) {
  u8 *d = B + 64ul * base; const u32 *s = sp;
  for (u32 k = 0; k < A; k++, d += 64, s += 2) {
    if (k + 24 < A) { __builtin_prefetch(B + 32ul * s[48]); __builtin_prefetch(B + 32ul * s[49]); }
    u64 a = 32ul * s[0], b = 32ul * s[1];
    *(V *) d = *(V *) (B + a) & *(V *) (B + b);
    *(V *) (d + 32) = *(V *) (B + (a ^ 32)) | *(V *) (B + (b ^ 32)); }
}
/* values of n literals in up to 256 lanes as characters, lane r at row[r] + off */
static void show(const u32 *lit, u32 n, u8 **row, u32 lanes, size_t off) {
  u64 a[64], p[64], q[64];
  for (u32 i = 0; i < n; i += 64) {
    u32 m = n - i < 64 ? n - i : 64;
    for (u32 w = 0; w < (lanes + 63) / 64; w++) {
      for (u32 j = 0; j < m; j++) a[j] = *(u64 *) (B + 32ul * lit[i + j] + 8 * w);
      tr64(a, p);
      for (u32 j = 0; j < m; j++) a[j] = *(u64 *) (B + 32ul * (lit[i + j] ^ 1) + 8 * w);
      tr64(a, q);
      u32 hi = lanes - 64 * w < 64 ? lanes - 64 * w : 64;
      for (u32 r = 0; r < hi; r++) if (row[64 * w + r]) expand(row[64 * w + r] + off + i, p[r], q[r], m); } }
}
static void feed(u32 I, const u8 **src, u32 lanes) {
  u64 a[64], b[64], p[64], q[64];
  for (u32 i = 0; i < I; i += 64) {
    u32 m = I - i < 64 ? I - i : 64;
    for (u32 w = 0; w < 4; w++) {
      if (64 * w >= lanes) break;
      for (u32 r = 0; r < 64; r++) { a[r] = b[r] = 0; if (64 * w + r < lanes && src[64 * w + r]) if (!masks(src[64 * w + r] + i, m, a + r, b + r)) die("bad stimulus line"); }
      tr64(a, p); tr64(b, q);
      for (u32 j = 0; j < m; j++) { u8 *d = B + 64ul * (i + j + 1) + 8 * w; *(u64 *) d = p[j]; *(u64 *) (d + 32) = q[j]; } } }
}
typedef struct { const u8 *at; u32 steps, stride; size_t out; } Run;
static void sim(Ckt *c, const char *stim, int batch) {
  Ord o = order(c, 1, 0); u32 I = c->I, L = c->L, O = c->O, A = c->A; sp = o.pair;
  Text t = slurp(stim); const u8 *p = t.p, *e = p + t.n;
  size_t w = (size_t) L + 1 + I + 1 + O + 1 + L + 1;
  if (!batch && L) {                     /* one run after the other, one step after the other */
    u8 *val = zalloc(2ul * (c->N + 1) + 64);      /* per literal: 0, 1 = x, 3 = one */
    static const uint16_t pr[4] = { 0x0300, 0x0101, 0, 0x0003 };
    static u8 code[256]; memset(code, 2, 256); code['0'] = 0; code['1'] = 3; code['x'] = 1;
    uint16_t *pv = (uint16_t *) val; pv[0] = pr[0];
    u8 *cur = malloc(L + 64), *line = malloc(w + 64), *nxl = malloc(L + 64); memset(cur, '0', L); int any = 0;
    for (u32 j = 0; j < L; j++) pv[I + 1 + j] = pr[0];
    while (p < e) {
      if (*p == '.') { p++; if (p < e && *p == '\r') p++; if (p < e && *p++ != '\n') die("bad stimulus line");
        oput(".\n", 2); memset(cur, '0', L); for (u32 j = 0; j < L; j++) pv[I + 1 + j] = pr[0];
        any = 0; continue; }
      if ((size_t) (e - p) < I) die("bad stimulus line");
      u8 bad = 0; for (u32 i = 0; i < I; i++) { u8 v = code[p[i]]; bad |= v == 2; pv[i + 1] = pr[v]; }
      const u8 *q = p + I; if (q < e && *q == '\r') q++;
      if (bad || (q < e && *q != '\n')) die("bad stimulus line");
      any = 1;
      const u32 *s = sp; uint16_t *d = pv + I + L + 1;
      for (u32 k = 0; k < A; k++, s += 2) *d++ = pr[val[s[0]] & val[s[1]]];
      static const char ch[4] = { '0', 'x', '?', '1' };
      u8 *z = line; memcpy(z, cur, L); z += L; *z++ = ' '; memcpy(z, p, I); z += I; *z++ = ' ';
      for (u32 j = 0; j < O; j++) *z++ = ch[val[o.out[j]]];
      *z++ = ' ';
      for (u32 j = 0; j < L; j++) nxl[j] = val[o.ln[j]];
      for (u32 j = 0; j < L; j++) { cur[j] = z[j] = ch[nxl[j]]; pv[I + 1 + j] = pr[nxl[j]]; }
      z += L; *z++ = '\n'; oput(line, w); p = q < e ? q + 1 : e; }
    if (any) oput(".\n", 2);
    oflush(); return; }
  B = aligned_alloc(64, 64ul * (c->N + 1ul) + 64); if (!B) die("out of memory");
  madvise((void *) (((uintptr_t) B + 4095) & ~4095ul), 64ul * c->N, MADV_HUGEPAGE);
  memset(B, 0, 32); memset(B + 32, 255, 32);
  if (!batch) {                          /* no latches: steps are independent, 256 at a time, over ends of runs too */
    const u8 *src[256]; u8 *row[256]; u32 dots[256]; u8 *buf = malloc(256 * w + 64); u32 n = 0; int any = 0;
    for (;;) {
      if (n == 256 || p >= e) {
        if (n) { feed(I, src, n); gates256(A, I + 1);
          for (u32 r = 0; r < n; r++) { u8 *z = row[r] = buf + r * w; z[0] = ' '; memcpy(z + 1, src[r], I); z[I + 1] = ' '; z[w - 2] = ' '; z[w - 1] = '\n'; }
          show(o.out, O, row, n, I + 2);
          for (u32 r = 0, q = 0; r < n; r++) if (dots[r] || r + 1 == n) { oput(buf + q * w, (r + 1 - q) * w); q = r + 1; for (u32 d = 0; d < dots[r]; d++) oput(".\n", 2); }
          n = 0; }
        if (p >= e) break; }
      if (*p == '.') { p++; if (p < e && *p == '\r') p++; if (p < e && *p++ != '\n') die("bad stimulus line");
        if (n) dots[n - 1]++; else oput(".\n", 2);
        any = 0; continue; }
      if ((size_t) (e - p) < I) die("bad stimulus line");
      dots[n] = 0; src[n++] = p; p += I; any = 1; if (p < e && *p == '\r') p++;
      if (p < e && *p++ != '\n') die("bad stimulus line"); }
    if (any) oput(".\n", 2);
    oflush(); return; }
  /* --batch: find the runs, then 256 of them side by side */
  u32 nr = 0, cr = 1024; Run *R = malloc(cr * sizeof *R); const u8 *at = p; u32 n = 0; const u8 **step = 0; size_t ns = 0, cs = 0;
  size_t s0 = 0;
  for (;;) {
    int end = p >= e, dot = !end && *p == '.';
    if (end ? n > 0 : dot) {
      if (nr == cr) R = realloc(R, (cr *= 2) * sizeof *R);
      R[nr].steps = n; R[nr].out = s0; nr++; n = 0; s0 = ns; (void) at;
      if (dot) { p++; if (p < e && *p == '\r') p++; if (p < e && *p++ != '\n') die("bad stimulus line"); } }
    if (end) break;
    if (dot) continue;
    if ((size_t) (e - p) < I) die("bad stimulus line");
    if (ns == cs) step = realloc(step, (cs = cs ? 2 * cs : 4096) * sizeof *step);
    step[ns++] = p; n++; p += I; if (p < e && *p == '\r') p++;
    if (p < e && *p++ != '\n') die("bad stimulus line"); }
  u8 *buf = 0; size_t cap = 0; V *nx = aligned_alloc(64, 64ul * L + 64);
  for (u32 r0 = 0; r0 < nr; r0 += 256) {
    u32 k = nr - r0 < 256 ? nr - r0 : 256, most = 0; size_t tot = 0; u8 *start[256], *row[256]; const u8 *src[256];
    for (u32 r = 0; r < k; r++) { tot += R[r0 + r].steps * w + 2; if (R[r0 + r].steps > most) most = R[r0 + r].steps; }
    if (tot > cap) { if (buf) munmap(buf, cap); buf = zalloc(cap = tot < (1 << 21) ? 1 << 21 : tot); }
    tot = 0; for (u32 r = 0; r < k; r++) { start[r] = buf + tot; tot += R[r0 + r].steps * w + 2; buf[tot - 2] = '.'; buf[tot - 1] = '\n'; }
    for (u32 j = 0; j < L; j++) { u8 *d = B + 64ul * (I + 1 + j); memset(d, 0, 32); memset(d + 32, 255, 32); }
    for (u32 s = 0; s < most; s++) {
      for (u32 r = 0; r < k; r++) {
        if (s >= R[r0 + r].steps) { row[r] = 0; src[r] = 0; continue; }
        src[r] = step[R[r0 + r].out + s]; u8 *z = row[r] = start[r] + s * w;
        if (s) memcpy(z, z - 1 - L, L); else memset(z, '0', L);
        z[L] = ' '; memcpy(z + L + 1, src[r], I); z[L + 1 + I] = ' '; z[L + 2 + I + O] = ' '; z[w - 1] = '\n'; }
      feed(I, src, k); gates256(A, I + L + 1);
      show(o.out, O, row, k, L + I + 2); show(o.ln, L, row, k, (size_t) L + I + O + 3);
      for (u32 j = 0; j < L; j++) { u64 l = 32ul * o.ln[j]; nx[2 * j] = *(V *) (B + l); nx[2 * j + 1] = *(V *) (B + (l ^ 32)); }
      memcpy(B + 64ul * (I + 1), nx, 64ul * L); }
    oput(buf, tot); }
  oflush();
}
/* ------------------------------------------------------------- unrolling */
static void unroll(Ckt *c, u32 k, int ascii) {
  Ord o = order(c, 1, 0); u32 I = c->I, L = c->L, A = c->A, O = c->O;
  if ((u64) k * ((u64) I + A) > 2147483647u || (u64) k * O > 2147483647u) die("too large to unroll");
  /* outputs come before the gates: the state of every frame is wanted first; a latch's
     value is a literal whose frame-0 form needs only substitution, so run frames twice:
     once for the outputs, once for the gates */
  u32 *m = zalloc(4ul * (c->N + 1)), *nx = zalloc(4ul * L + 64);
  head5(ascii ? "aag" : "aig", k * (I + A), k * I, 0, k * O, k * A);
  if (ascii) for (u32 i = 0; i < k * I; i++) { room(64); op = pnum(op, 2 * (i + 1)); *op++ = '\n'; }
  for (int pass = 0; pass < 2; pass++) {
    for (u32 j = 0; j < L; j++) m[I + 1 + j] = 0;
    for (u32 t = 0; t < k; t++) {
      u32 g0 = 2 * (k * I + t * A + 1), b = I + L + 1; m[0] = 0;
      /* value of a literal: input or gate by offset, latch by table */
      for (u32 i = 0; i < I; i++) m[i + 1] = 2 * (t * I + i + 1);
#define AT(l) ({ u32 l_ = (l), v_ = l_ >> 1; (v_ < b ? m[v_] : g0 + 2 * (v_ - b)) ^ (l_ & 1); })
      if (!pass) for (u32 i = 0; i < O; i++) { room(64); op = pnum(op, AT(o.out[i])); *op++ = '\n'; }
      else {
        u32 lhs = g0; const u32 *s = o.pair;
        for (u32 i = 0; i < A; i++, lhs += 2, s += 2) {
          u32 x = AT(s[0]), y = AT(s[1]), h = x > y ? x : y, l = x > y ? y : x; room(64);
          if (ascii) { op = pnum(op, lhs); *op++ = ' '; op = pnum(op, h); *op++ = ' '; op = pnum(op, l); *op++ = '\n'; }
          else { op = pd(op, lhs - h); op = pd(op, h - l); } } }
      for (u32 j = 0; j < L; j++) nx[j] = AT(o.ln[j]);
      memcpy(m + I + 1, nx, 4ul * L); } }
  oflush();
}
int main(int n, char **v) {
  int ascii = 0, strip = 0, keep = 0, und = 0, batch = 0, q = 0; u32 k = 0; const char *f[2] = { "-", "-" };
  if (n < 2) return 2;
  for (int i = 2; i < n; i++) {
    if (!strcmp(v[i], "--ascii")) ascii = 1; else if (!strcmp(v[i], "--strip")) strip = 1;
    else if (!strcmp(v[i], "--keep-map")) keep = 1; else if (!strcmp(v[i], "--undo-map")) und = 1;
    else if (!strcmp(v[i], "--batch")) batch = 1; else if (!strcmp(v[i], "--frames")) k = strtoul(v[++i], 0, 10);
    else if (q < 2) f[q++] = v[i]; else return 2; }
  if (getenv("FAST_HASH")) onlyhash = 1;
  if (getenv("FAST_BLOCK")) { olim = strtoul(getenv("FAST_BLOCK"), 0, 10); if (olim < 256 || olim > sizeof obuf) olim = sizeof obuf; }
  tables(); size_t l = strlen(f[1]); if (l > 4 && !strcmp(f[1] + l - 4, ".aag")) ascii = 1;
  if (!strcmp(v[1], "aigsim")) { Ckt c = rd(f[0]); sim(&c, f[1], batch); return 0; }
  outname = f[1]; Ckt c = rd(f[0]);
  if (!strcmp(v[1], "aigunroll")) { unroll(&c, k, ascii); return 0; }
  if (strcmp(v[1], "aigtoaig")) return 2;
  if (und) { Ckt r = undo(&c); c = r; if (ascii) { wascii(&c, c.in, c.lv, c.ln, c.out, c.g, 0); wtail(&c, strip); oflush(); return 0; } }
  if (ascii) { if (!c.bin) order(&c, 0, 0); wascii(&c, c.in, c.lv, c.ln, c.out, c.g, c.bin); wtail(&c, strip); }
  else { Ord o = order(&c, 1, keep); wbin(&c, o.ln, o.out, o.pair); if (keep) { symbols(&c); wmap(&c, &o); } else wtail(&c, strip); }
  oflush(); return 0;
}
