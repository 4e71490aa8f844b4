/* Those who decide accesses beside each other, what they are given, and how they are asked. */
#ifndef PEER_H
#define PEER_H
#include <stdbool.h>
#include <stddef.h>
#include <stdint.h>

enum { USER = 0, SUPERVISOR = 1, MACHINE = 3 };
enum { FETCH = 0, LOAD = 1, STORE = 2 };
enum { PMPCFG0 = 0x3a0, PMPADDR0 = 0x3b0, MSECCFG = 0x747 };

struct write {
    uint16_t number;
    uint64_t value;
};

struct request {
    uint64_t start;
    uint64_t length;
    uint8_t mode;
    uint8_t kind;
};

/* A decision is the entry of the rule, SPLIT and the entry that it is split by, or NO_MATCH; and ALLOWED more where it
   is allowed. */
enum { SPLIT = 256, NO_MATCH = 512, NO_ACCESS = 513, ALLOWED = 1024 };

/* The rights of a page are a set of the first three, or MIXED where not all its bytes have the same entry. */
enum { READABLE = 1, WRITABLE = 2, EXECUTABLE = 4, MIXED = 8 };

/* Of all memory. */
#define LAST_BYTE ((UINT64_C(1) << 56) - 1)

/* How requests come: one after the other as fast as they are answered, or each only once the one before is. */
enum pace { FREE, IN_TURN };

/* Who is asked, over a unit of its own. Where a function is NULL, that isn't timed of this peer. */
struct peer {
    const char *name;
    /* The number above, of what it answers; NULL where it answers by what is allowed alone, and 0 otherwise. */
    unsigned (*number_of)(unsigned answer);
    /* The registers after these writes from reset, in a unit of as many entries as the benchmark is compiled for, and
       what has to be made of them before the first question. */
    void (*prepare)(const struct write *writes, size_t count);
    /* Makes these writes as the unit stands, and what has to be made of them before the next question. */
    void (*change)(const struct write *writes, size_t count);
    /* Makes this write, and answers whether a TLB has to forget pages then: those from the first byte to the last. */
    bool (*moves)(struct write write, uint64_t *first, uint64_t *last);
    /* Makes these writes alone. */
    void (*write)(const struct write *writes, size_t count);
    /* Reads the registers of these numbers. */
    void (*read)(const struct write *writes, size_t count, uint64_t *values);
    void (*decide)(const struct request *requests, size_t count, uint16_t *answers, enum pace pace);
    /* The rights of the page of each request, which a TLB asks for where it takes the page in. */
    void (*fill)(const struct request *requests, size_t count, uint16_t *answers, enum pace pace);
    /* The rights at an address, which all bytes round it have from first to last. */
    unsigned (*run)(unsigned mode, uint64_t address, uint64_t *first, uint64_t *last);
    /* Builds the map as often. */
    void (*build)(size_t count);
};

/* Zero, which the compiler doesn't know, and which isn't there before the answer is. */
static inline uint64_t delay_by(uint64_t answer) {
    __asm__ volatile("" : "+r"(answer));
    return answer >> 32;
}

static inline __attribute__((always_inline)) void ask_each(unsigned (*answer_to)(struct request),
                                                           const struct request *requests, size_t count,
                                                           uint16_t *answers, enum pace pace) {
    uint64_t delay = 0;
    for (size_t i = 0; i < count; i++) {
        struct request request = requests[i];
        request.start += delay;
        unsigned answer = answer_to(request);
        answers[i] = answer;
        if (pace == IN_TURN)
            delay = delay_by(answer);
    }
}

/* A function that asks by this one, in a loop of its own for either pace. */
#define ASK_BY(NAME, ANSWER_TO)                                                                        \
    static void NAME(const struct request *requests, size_t count, uint16_t *answers, enum pace pace) { \
        if (pace == FREE)                                                                               \
            ask_each(ANSWER_TO, requests, count, answers, FREE);                                        \
        else                                                                                            \
            ask_each(ANSWER_TO, requests, count, answers, IN_TURN);                                     \
    }

#endif
