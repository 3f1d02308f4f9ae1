// A heap that refuses and counts, to be preloaded: it counts the requests of a program, refuses the one whose number is
// in REFUSE_AT, or each from the one in REFUSE_FROM on, and reports at the end in the file REFUSED_REPORT how many requests
// there were, how many were refused, how many blocks were not given back, how many bytes were asked for and how many of
// them were held at the most, and how many reads of standard input and writes to the two standard streams were made.
typedef unsigned long size;

void *__libc_malloc(size);
void *__libc_realloc(void *, size);
void __libc_free(void *);
char *getenv(const char *);
int open(const char *, int, ...);
int close(int);
long __read(int, void *, size);
long __write(int, const void *, size);
size malloc_usable_size(void *);
int dprintf(int, const char *, ...);
unsigned long strtoul(const char *, char **, int);

static size refuse_at, refuse_from, requests, refused, live, asked, held, most, reads, writes;
static int counting;

static size number(const char *name) {
  const char *text = getenv(name);
  return text ? strtoul(text, 0, 10) : 0;
}

__attribute__((constructor)) static void begin(void) {
  refuse_at = number("REFUSE_AT");
  refuse_from = number("REFUSE_FROM");
  counting = 1;
}

__attribute__((destructor)) static void end(void) {
  const char *report = getenv("REFUSED_REPORT");
  counting = 0;
  if (!report) return;
  int file = open(report, 01101, 0600); // write only, made, emptied
  dprintf(file, "%lu %lu %lu %lu %lu %lu %lu\n", requests, refused, live, asked, most, reads, writes);
  close(file);
}

static int is_refused(void) {
  if (!counting) return 0;
  requests += 1;
  if (requests != refuse_at && (!refuse_from || requests < refuse_from)) return 0;
  refused += 1;
  return 1;
}

// A block in the place of one that had so many bytes.
static void *taken(size bytes, void *block, size before) {
  if (!counting || !block) return block;
  live += !before;
  asked += bytes;
  held += malloc_usable_size(block) - before;
  if (held > most) most = held;
  return block;
}

void *malloc(size bytes) { return is_refused() ? 0 : taken(bytes, __libc_malloc(bytes), 0); }

void *realloc(void *old, size bytes) {
  size before = malloc_usable_size(old);
  return is_refused() ? 0 : taken(bytes, __libc_realloc(old, bytes), before);
}

void free(void *block) {
  if (counting && block) {
    live -= 1;
    held -= malloc_usable_size(block);
  }
  __libc_free(block);
}

long read(int file, void *bytes, size count) {
  if (file == 0) reads += 1;
  return __read(file, bytes, count);
}

long write(int file, const void *bytes, size count) {
  if (file == 1 || file == 2) writes += 1;
  return __write(file, bytes, count);
}
