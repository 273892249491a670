// Refuses one of a Rattle program's allocations, and counts them all. Loaded before the C library (LD_PRELOAD), whose `malloc` and
// `realloc` stand behind these two.
//
// REFUSED   the number of the allocation that is refused, from 1; 0 refuses none
// CALLERS   the program's code that asks for memory: of each part, in hexadecimal, the address where it was linked, and how long it is
// COUNTED   a file of eight bytes, which become the number of allocations
//
// Whoever else asks, as the C library for itself and what starts a thread, is neither counted nor refused. No header is needed, and none
// included.
typedef unsigned long word;
typedef struct {
  unsigned type, flags;
  word offset, address, physical, in_file, in_memory, align;
} segment;

enum { SEGMENTS = 3, SEGMENTS_COUNT = 5, SEGMENTS_THEMSELVES = 6, READ_WRITE = 2, READ_AND_WRITE = 3, SHARED = 1, PARTS = 2 };

extern word getauxval(word), strtoul(const char *, char **, int);
extern char *getenv(const char *);
extern int open(const char *, int, ...);
extern void *mmap(void *, word, int, int, int, long), *__libc_malloc(word), *__libc_realloc(void *, word);
extern void abort(void);

static word refused, from[PARTS], length[PARTS], uncounted, *counted = &uncounted;

// Where the program was loaded.
static word base(void) {
  const segment *first = (const segment *)getauxval(SEGMENTS), *end = first + getauxval(SEGMENTS_COUNT);
  for (const segment *it = first; it < end; it++)
    if (it->type == SEGMENTS_THEMSELVES) return (word)first - it->address;
  abort();
}

__attribute__((constructor)) static void begin(void) {
  char *callers = getenv("CALLERS");
  for (int part = 0; part < PARTS; part++) {
    from[part] = base() + strtoul(callers, &callers, 16);
    length[part] = strtoul(callers, &callers, 16);
  }
  refused = strtoul(getenv("REFUSED"), 0, 10);
  counted = mmap(0, sizeof(word), READ_AND_WRITE, SHARED, open(getenv("COUNTED"), READ_WRITE), 0);
  if (counted == (word *)-1) abort();
}

static int is_refused(word caller) {
  int is_ours = 0;
  for (int part = 0; part < PARTS; part++) is_ours |= caller - from[part] < length[part];
  return is_ours && __atomic_add_fetch(counted, 1, __ATOMIC_SEQ_CST) == refused;
}

void *malloc(word size) { return is_refused((word)__builtin_return_address(0)) ? 0 : __libc_malloc(size); }

void *realloc(void *old, word size) { return is_refused((word)__builtin_return_address(0)) ? 0 : __libc_realloc(old, size); }
