// Prints how much stack each export of the library takes. No C library: two calls of the system, and what a compiler
// may ask for.
typedef unsigned char u8;
typedef long i64;
typedef unsigned long u64;

u8 dunrossel_reduce(i64 k, u8 n, const i64 *zw, i64 *out);
u8 dunrossel_matrix(const u8 *word, u64 len, i64 *out, u64 *place);
u8 dunrossel_normalise(const u8 *word, u64 len, u8 *buf, u64 room, u64 *out);
u8 dunrossel_phase_free(const u8 *word, u64 len, u8 *buf, u64 room, u64 *out);
u8 dunrossel_synthesise(i64 k, u8 n, const i64 *zw, u8 *buf, u64 room, u64 *out);
void dunrossel_clifford_product(const int *x, const int *y, int *out);
void dunrossel_clifford_inverse(const int *x, int *out);
void dunrossel_clifford_coset(const int *x, int *out);
u8 dunrossel_view(i64 k, u8 n, const i64 *zw, double *out);
u64 dunrossel_bench(const u8 *record, u64 len, u8 *out);
u8 dunrossel_qasm2_write(const u8 *word, u64 len, u8 *buf, u64 room, u64 *out);
u8 dunrossel_qasm3_write(const u8 *word, u64 len, u8 *buf, u64 room, u64 *out);
u8 dunrossel_qasm_read(const u8 *text, u64 len, u8 *buf, u64 room, u64 *out);
u8 dunrossel_synthesise_steps(i64 k, u8 n, const i64 *zw, u8 *buf, u64 room, u64 *out);
u8 dunrossel_t_count(i64 k, u8 n, const i64 *zw, u64 *tees);
u8 dunrossel_rotation(i64 k, u8 n, const i64 *zw, i64 *out);
u8 dunrossel_slot_add(u8 letter, u8 *syllables, u64 *rest, u64 *length);
u8 dunrossel_slot_length(const u8 *syllables, const u64 *rest, u64 *length);

static i64 sys(i64 n, i64 a, i64 b, i64 c, i64 d, i64 e) {
  register i64 r10 __asm__("r10") = d;
  register i64 r8 __asm__("r8") = e;
  register i64 r9 __asm__("r9") = 0;
  i64 r;
  __asm__ volatile("syscall" : "=a"(r) : "a"(n), "D"(a), "S"(b), "d"(c), "r"(r10), "r"(r8), "r"(r9) : "rcx", "r11", "memory");
  return r;
}
static void write_bytes(const void *b, u64 n) { sys(1, 1, (i64)b, (i64)n, 0, 0); }
__attribute__((noreturn)) static void end(i64 status) {
  for (;;) sys(60, status, 0, 0, 0, 0);
}

__attribute__((weak)) void *memset(void *p, int v, u64 n) {
  for (volatile u8 *b = p; n--;) *b++ = (u8)v;
  return p;
}
__attribute__((weak)) void *memcpy(void *p, const void *q, u64 n) {
  const u8 *f = q;
  for (volatile u8 *b = p; n--;) *b++ = *f++;
  return p;
}
__attribute__((weak)) void *memmove(void *p, const void *q, u64 n) {
  volatile u8 *b = p;
  const volatile u8 *f = q;
  if (b < f) {
    while (n--) *b++ = *f++;
  } else {
    while (n--) b[n] = f[n];
  }
  return p;
}
__attribute__((weak)) int memcmp(const void *p, const void *q, u64 n) {
  const volatile u8 *a = p, *b = q;
  for (; n--; a++, b++)
    if (*a != *b) return *a < *b ? -1 : 1;
  return 0;
}

// The job's number as src/abi.rs has it.
static u64 call(u64 job, const u64 *a) {
  switch (job) {
  case 0: return dunrossel_reduce((i64)a[0], (u8)a[1], (i64 *)a[2], (i64 *)a[3]);
  case 1: return dunrossel_matrix((u8 *)a[0], a[1], (i64 *)a[2], (u64 *)a[3]);
  case 2: return dunrossel_normalise((u8 *)a[0], a[1], (u8 *)a[2], a[3], (u64 *)a[4]);
  case 3: return dunrossel_phase_free((u8 *)a[0], a[1], (u8 *)a[2], a[3], (u64 *)a[4]);
  case 4: return dunrossel_synthesise((i64)a[0], (u8)a[1], (i64 *)a[2], (u8 *)a[3], a[4], (u64 *)a[5]);
  case 5: dunrossel_clifford_product((int *)a[0], (int *)a[1], (int *)a[2]); return 0;
  case 6: dunrossel_clifford_inverse((int *)a[0], (int *)a[1]); return 0;
  case 7: dunrossel_clifford_coset((int *)a[0], (int *)a[1]); return 0;
  case 8: return dunrossel_view((i64)a[0], (u8)a[1], (i64 *)a[2], (double *)a[3]);
  case 9: return dunrossel_bench((u8 *)a[0], a[1], (u8 *)a[2]);
  case 10: return dunrossel_qasm2_write((u8 *)a[0], a[1], (u8 *)a[2], a[3], (u64 *)a[4]);
  case 11: return dunrossel_qasm3_write((u8 *)a[0], a[1], (u8 *)a[2], a[3], (u64 *)a[4]);
  case 12: return dunrossel_qasm_read((u8 *)a[0], a[1], (u8 *)a[2], a[3], (u64 *)a[4]);
  case 13: return dunrossel_synthesise_steps((i64)a[0], (u8)a[1], (i64 *)a[2], (u8 *)a[3], a[4], (u64 *)a[5]);
  case 14: return dunrossel_t_count((i64)a[0], (u8)a[1], (i64 *)a[2], (u64 *)a[3]);
  case 15: return dunrossel_rotation((i64)a[0], (u8)a[1], (i64 *)a[2], (i64 *)a[3]);
  case 16: return dunrossel_slot_add((u8)a[0], (u8 *)a[1], (u64 *)a[2], (u64 *)a[3]);
  case 17: return dunrossel_slot_length((u8 *)a[0], (u64 *)a[1], (u64 *)a[2]);
  }
  end(3);
}

// A call on a stack of our own, filled before and looked at after.
enum { DEPTH = 1 << 20 };
static u8 ground[DEPTH] __attribute__((aligned(16)));
static u64 taken(u64 job, const u64 *args) {
  memset(ground, 0xa5, DEPTH);
  void *top = ground + DEPTH;
  __asm__ volatile("xchg %%rsp, %%rbx\n\tcall *%%rax\n\tmov %%rbx, %%rsp"
                   : "+b"(top), "+D"(job), "+S"(args)
                   : "a"(call)
                   : "rcx", "rdx", "r8", "r9", "r10", "r11", "memory", "cc", "xmm0", "xmm1", "xmm2", "xmm3", "xmm4",
                     "xmm5", "xmm6", "xmm7", "xmm8", "xmm9", "xmm10", "xmm11", "xmm12", "xmm13", "xmm14", "xmm15");
  u64 n = 0;
  while (n < DEPTH && ground[n] == 0xa5) n++;
  return DEPTH - n;
}

static void print(const char *name, u64 n) {
  char digits[24];
  int at = 24;
  do digits[--at] = (char)('0' + n % 10); while (n /= 10);
  u64 len = 0;
  while (name[len]) len++;
  write_bytes("| ", 2);
  write_bytes(name, len);
  write_bytes(" | ", 3);
  write_bytes(digits + at, 24 - (u64)at);
  write_bytes(" |\n", 3);
}

enum { CIRCUIT = 64 + 8 * 4096 }; // a head, and 4,096 lines of eight bytes
static u8 word[4096], text[12320], circuit[CIRCUIT];
static i64 numbers[10];
static i64 turned[19];
static u64 out[10], rest[6] = {4096, 8193, 0, 0, 0, 0}; // HT 4,096 times, and I
static void stacks(void) {
  static const char head[] = "| Export | stack taken, bytes |\n|---|---|\n";
  static const i64 deep[8] = {0, 0, 0, 1 << 30, 0, 0, 0, 0};
  static const u8 record[] = "k=60\nn=255\nz=0,0,0,1073741824\nw=0,0,0,0\n";
  static const int x[4] = {1, 1, 0, 0};
  for (int i = 0; i < 4096; i++) word[i] = i % 3 == 1 ? 'H' : 'T';
  u64 w = (u64)word, t = (u64)text, o = (u64)out, m = (u64)numbers, z = (u64)deep, c = (u64)x, l = (u64)circuit;
  write_bytes(head, sizeof head - 1);
  print("dunrossel_reduce", taken(0, (u64[]){60, 0, z, m}));
  print("dunrossel_matrix", taken(1, (u64[]){w, 4096, m, o}));
  print("dunrossel_normalise", taken(2, (u64[]){w, 4096, t, 12320, o}));
  print("dunrossel_phase_free", taken(3, (u64[]){w, 4096, t, 12320, o}));
  print("dunrossel_qasm2_write", taken(10, (u64[]){w, 4096, l, CIRCUIT, o}));
  print("dunrossel_qasm3_write", taken(11, (u64[]){w, 4096, l, CIRCUIT, o}));
  print("dunrossel_qasm_read", taken(12, (u64[]){l, out[1], t, 12320, o}));
  // H·T^a·H·T^b..: a triple that synthesis takes apart in many steps.
  for (int i = 0; i < 100; i++) word[i] = i % 2 ? 'T' : 'H';
  dunrossel_matrix(word, 100, numbers, out);
  const u64 many[] = {(u64)numbers[0], (u64)numbers[1], m + 16, t, 376, o};
  print("dunrossel_synthesise", taken(4, many));
  print("dunrossel_synthesise_steps", taken(13, many));
  print("dunrossel_t_count", taken(14, (u64[]){many[0], many[1], many[2], o}));
  print("dunrossel_rotation", taken(15, (u64[]){many[0], many[1], many[2], (u64)turned}));
  print("dunrossel_clifford_product", taken(5, (u64[]){c, c, m}));
  print("dunrossel_clifford_inverse", taken(6, (u64[]){c, m}));
  print("dunrossel_clifford_coset", taken(7, (u64[]){c, m}));
  print("dunrossel_view", taken(8, (u64[]){60, 0, z, o}));
  memset(word, 2, 4096);
  print("dunrossel_slot_length", taken(17, (u64[]){w, (u64)rest, o}));
  print("dunrossel_slot_add", taken(16, (u64[]){'T', w, (u64)rest, o}));
  print("dunrossel_bench", taken(9, (u64[]){(u64)record, sizeof record - 1, t}));
}

__attribute__((used)) static void start(void) {
  stacks();
  end(0);
}
__asm__(".globl _start\n_start:\n\tand $-16, %rsp\n\tcall start\n");
