/* ---- What the module's functions stand on: numbers as WebAssembly has them, and the process's own memory.
 *
 * An address of the module is a pointer minus MEMORY. No access is checked: the proof has done that. */
#include <stdlib.h>
#include <string.h>

#if defined(__BYTE_ORDER__) && __BYTE_ORDER__ != __ORDER_LITTLE_ENDIAN__
#error "tilvenka_pmp.c is for little-endian processors: the library reads eight configuration bytes as one number"
#endif
#if defined(__GNUC__)
#pragma GCC diagnostic ignored "-Wunused-function"
#pragma GCC diagnostic ignored "-Wunused-value"
#pragma GCC diagnostic ignored "-Wunused-parameter"
#endif

typedef uint8_t u8;
typedef int8_t s8;
typedef uint16_t u16;
typedef uint32_t u32;
typedef int32_t s32;
typedef uint64_t u64;
typedef int64_t s64;

/* A call's globals. Each call has its own, and its own stack. */
typedef struct w2c_pmp {
    u64 w2c_0x5F_stack_pointer;
    u32 w2c_in_call;
    char w2c_memory;
} w2c_pmp;

#define FUNC_PROLOGUE
#define FUNC_EPILOGUE
#define UNREACHABLE abort()

static void *pointer_to(u64 address);

#define LOAD(NAME, STORED, VALUE)                         \
    static inline VALUE NAME(char *memory, u64 address) { \
        STORED number;                                    \
        (void)memory;                                     \
        memcpy(&number, pointer_to(address), sizeof number); \
        return (VALUE)number;                             \
    }
#define STORE(NAME, STORED, VALUE)                                   \
    static inline void NAME(char *memory, u64 address, VALUE value) { \
        STORED number = (STORED)value;                               \
        (void)memory;                                                \
        memcpy(pointer_to(address), &number, sizeof number);         \
    }

LOAD(i32_load8_u, u8, u32)
LOAD(i32_load8_s, s8, u32)
LOAD(i32_load16_u, u16, u32)
LOAD(i32_load, u32, u32)
LOAD(i64_load8_u, u8, u64)
LOAD(i64_load16_u, u16, u64)
LOAD(i64_load32_u, u32, u64)
LOAD(i64_load, u64, u64)
STORE(i32_store8, u8, u32)
STORE(i32_store16, u16, u32)
STORE(i32_store, u32, u32)
STORE(i64_store8, u8, u64)
STORE(i64_store16, u16, u64)
STORE(i64_store32, u32, u64)
STORE(i64_store, u64, u64)

static inline void memory_fill(char *memory, u64 address, u32 byte, u64 count) {
    (void)memory;
    memset(pointer_to(address), (int)byte, (size_t)count);
}

static inline void memory_copy(char *memory, char *from, u64 address, u64 source, u64 count) {
    (void)memory;
    (void)from;
    memmove(pointer_to(address), pointer_to(source), (size_t)count);
}

/* The number of zeros below the lowest bit that is set: 64 of zero. */
#if defined(__GNUC__) && !defined(__TINYC__)
#define I64_CTZ(number) ((number) ? (u64)__builtin_ctzll(number) : 64)
#else
static inline u64 I64_CTZ(u64 number) {
    u64 zeros = 0;
    for (; zeros < 64 && !(number >> zeros & 1); zeros++)
        ;
    return zeros;
}
#endif
