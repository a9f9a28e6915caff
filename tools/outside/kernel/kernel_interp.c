/* The kernel's interpreter loop in user space: lines `CODE ARG..` come in, code as hex digits and
 * arguments in decimal; for each the answer goes out, or `trap`. Division by zero isn't guarded
 * (in the kernel the verifier puts a guard into the program) and comes out as `trap`. */
#include <inttypes.h>
#include <setjmp.h>
#include <signal.h>
#include <stdbool.h>
#include <stddef.h>
#include <stdint.h>
#include <stdio.h>
#include <stdlib.h>
#include <string.h>
typedef uint8_t u8; typedef uint16_t u16; typedef uint32_t u32; typedef uint64_t u64;
typedef int8_t s8; typedef int16_t s16; typedef int32_t s32; typedef int64_t s64;
#include <linux/bpf.h>
#ifndef BPF_MEMSX
#define BPF_MEMSX 0x80
#endif
#define __annotate_jump_table
#define __force
#define BPF_TAIL_CALL 0xf0
#define BPF_CALL_ARGS 0xe0
#define BPF_NOSPEC 0xc0
#define BPF_PROBE_MEM 0x20
#define BPF_PROBE_MEMSX 0x40
#define BPF_REG_AX MAX_BPF_REG
#define MAX_BPF_EXT_REG (MAX_BPF_REG + 1)
#define BPF_REG_FP BPF_REG_10
#define BPF_REG_ARG1 BPF_REG_1
#define BPF_REG_CTX BPF_REG_6
#define likely(x) __builtin_expect(!!(x), 1)
#define unlikely(x) __builtin_expect(!!(x), 0)
#define READ_ONCE(x) (x)
#define MAX_TAIL_CALL_CNT 33
#define fallthrough __attribute__((__fallthrough__))
#define container_of(p, t, m) ((t *)((char *)(p) - offsetof(t, m)))
#define barrier_nospec() ((void)0)
#define BUG_ON(x) abort()
#define pr_warn(...) fprintf(stderr, __VA_ARGS__)
#define do_div(n, b) ({ u32 b_ = (b); u32 r_ = (n) % b_; (n) = (n) / b_; r_; })
#define div64_u64(a, b) ((u64)(a) / (u64)(b))
#define div64_s64(a, b) ((s64)(a) / (s64)(b))
#define div64_u64_rem(a, b, r) (*(r) = (u64)(a) % (u64)(b), (u64)(a) / (u64)(b))
#define div_s64_rem(a, b, r) (*(r) = (s64)(a) % (s64)(b), (s64)(a) / (s64)(b))
static inline u32 abs_s32(s32 x) { return x >= 0 ? (u32)x : -(u32)x; }
#define cpu_to_be16(x) __builtin_bswap16(x)
#define cpu_to_be32(x) __builtin_bswap32(x)
#define cpu_to_be64(x) __builtin_bswap64(x)
#define cpu_to_le16(x) ((u16)(x))
#define cpu_to_le32(x) ((u32)(x))
#define cpu_to_le64(x) (x)
#define __swab16(x) __builtin_bswap16(x)
#define __swab32(x) __builtin_bswap32(x)
#define __swab64(x) __builtin_bswap64(x)
#define bpf_probe_read_kernel_common(d, n, s) memcpy(d, s, n)
struct bpf_map { u32 max_entries; };
struct bpf_prog { struct bpf_insn insnsi[1]; };
struct bpf_array { struct bpf_map map; struct bpf_prog *ptrs[1]; };
typedef struct { int v; } atomic_t;
typedef struct { s64 v; } atomic64_t;
#define A1(op, b) static inline void atomic_##op(int i, atomic_t *a) { __atomic_fetch_##b(&a->v, i, 5); } static inline int atomic_fetch_##op(int i, atomic_t *a) { return __atomic_fetch_##b(&a->v, i, 5); } \
 static inline void atomic64_##op(s64 i, atomic64_t *a) { __atomic_fetch_##b(&a->v, i, 5); } static inline s64 atomic64_fetch_##op(s64 i, atomic64_t *a) { return __atomic_fetch_##b(&a->v, i, 5); }
A1(add, add) A1(and, and) A1(or, or) A1(xor, xor)
#define atomic_xchg(a, v_) __atomic_exchange_n(&(a)->v, v_, 5)
#define atomic64_xchg(a, v_) __atomic_exchange_n(&(a)->v, v_, 5)
static inline int atomic_cmpxchg(atomic_t *a, int o, int n) { __atomic_compare_exchange_n(&a->v, &o, n, 0, 5, 5); return o; }
static inline s64 atomic64_cmpxchg(atomic64_t *a, s64 o, s64 n) { __atomic_compare_exchange_n(&a->v, &o, n, 0, 5, 5); return o; }
static u64 __bpf_call_base(u64 a, u64 b, u64 c, u64 d, u64 e) { return 0; }
static u64 __bpf_call_base_args(u64 a, u64 b, u64 c, u64 d, u64 e, const struct bpf_insn *i) { return 0; }
#include "loop.h"

static __attribute__((noinline)) u64 run(const struct bpf_insn *insn, const u64 *args)
{
	u64 stack[64] = { 0 }, r[MAX_BPF_EXT_REG] = { 0 };
	r[10] = (u64)(unsigned long)&stack[64];
	r[1] = (u64)(unsigned long)args;
	return ___bpf_prog_run(r, insn);
}
static sigjmp_buf jb;
static void trap(int s) { siglongjmp(jb, s); }

int main(void)
{
	static char line[1 << 20];
	static u8 code[65536] __attribute__((aligned(8)));
	signal(SIGFPE, trap); signal(SIGSEGV, trap);
	while (fgets(line, sizeof line, stdin)) {
		char *rest = line, *hex = strtok_r(line, " \n", &rest), *word;
		u64 args[8] = { 0 };
		for (int i = 0; i < 8 && (word = strtok_r(0, " \n", &rest)); i++) args[i] = strtoull(word, 0, 10);
		size_t bytes = strlen(hex) / 2;
		for (size_t i = 0; i < bytes; i++) sscanf(hex + 2 * i, "%2hhx", &code[i]);
		if (sigsetjmp(jb, 1)) { puts("trap"); continue; }
		printf("%" PRIu64 "\n", run((void *)code, args));
	}
	return 0;
}
