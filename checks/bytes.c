// bytes: decides accesses in small units of RV64 and RV32 as their bytes say, by the model of checks/model.h: which
// entry is the first to match one of them, and whether it matches them all. The last line is 'N passed, M failed'.
#include "model.h"

enum { BYTES = 600, LONGEST = 20, RANDOM_FILES = 300 };

// The entries from `first` on; all others are off. Addresses are as in pmpaddr.
struct file {
    unsigned first, count;
    uint8_t configurations[64];
    uint64_t addresses[64];
};

// Overlapping, nested, empty and inverted regions of all four kinds below byte 64.
static const struct file SMALL_FILES[] = {
    {0, 5, {0, 0, 0, 0, 0}, {4, 8, 12, 15, 3}},
    {0, 5, {0x17, 0x11, 0x19, 0x1b, 0x1f}, {4, 5, 2, 7, 15}},
    {0, 5, {0x0c, 0x0b, 0x09, 0x09, 0x0f}, {2, 9, 4, 4, 12}},
    {0, 5, {0x9f, 0x0f, 0x91, 0x8f, 0x98}, {1, 6, 6, 3, 0}},
    {0, 5, {0x17, 0x0b, 0x00, 0x11, 0x09}, {3, 11, 2, 14, 15}},
};

static void write_both(tilvenka_pmp_unit *unit, struct model *model, uint32_t csr, uint64_t value) {
    if (tilvenka_pmp_write(unit, csr, value) != model_write(model, csr, value))
        abort();
}

// Writes the file to a unit after reset, and to its model.
static void write_file(tilvenka_pmp_unit *unit, struct model *model, const struct file *file) {
    uint8_t bytes[64] = {0};
    reset(unit, number_of(model));
    for (unsigned i = 0; i < file->count; i++) {
        write_both(unit, model, PMPADDR0 + file->first + i, file->addresses[i]);
        bytes[file->first + i] = file->configurations[i];
    }
    for (unsigned entry = 0; entry < model->entries; entry += model->xlen / 8) {
        uint64_t value = 0;
        for (unsigned place = 0; place < model->xlen / 8; place++)
            value |= (uint64_t)bytes[entry + place] << 8 * place;
        write_both(unit, model, PMPCFG0 + entry / 4, value);
    }
}

static bool decides_as_its_bytes_say(const struct file *file, unsigned xlen, uint64_t entries, uint64_t bytes,
                                     unsigned step) {
    static tilvenka_pmp_unit unit;
    struct model model = {.xlen = xlen, .entries = entries, .bits = xlen == 32 ? 34 : 56, .has_smepmp = true};
    write_file(&unit, &model, file);
    for (uint64_t start = 0; start < bytes; start += step)
        for (uint64_t length = 1; length < LONGEST; length += step)
            if (decide(&unit, U, LOAD, start, length) != model_decide(&model, U, LOAD, start, length))
                return false;
    return true;
}

// As the first entries of a unit, and as its last.
static void try_small_files(unsigned xlen) {
    for (unsigned i = 0; i < sizeof SMALL_FILES / sizeof *SMALL_FILES; i++)
        for (uint64_t entries = 16; entries <= 64; entries += 48) {
            struct file file = SMALL_FILES[i];
            expect(decides_as_its_bytes_say(&file, xlen, entries, 72, 1), "small file", i);
            file.first = entries - file.count;
            expect(decides_as_its_bytes_say(&file, xlen, entries, 72, 1), "small file at the end", i);
        }
}

// Entries of a word each, with a word between them: no map is longer.
static void try_combs(unsigned xlen) {
    for (uint64_t entries = 16; entries <= 64; entries += 48) {
        struct file file = {0, entries, {0}, {0}};
        for (unsigned entry = 0; entry < entries; entry++) {
            file.configurations[entry] = 0x11;
            file.addresses[entry] = 2 * entry + 1;
        }
        expect(decides_as_its_bytes_say(&file, xlen, entries, BYTES, 1), "comb", entries);
    }
}

// Entries of any kind and number, with no rights, R, RX or RWX, which lie below byte 1024.
static void try_random_files(unsigned xlen) {
    static const uint8_t RIGHTS[4] = {0, 1, 5, 7};
    for (unsigned i = 0; i < RANDOM_FILES; i++) {
        uint64_t entries = i % 2 ? 16 : 64;
        struct file file = {0, next_random() % entries + 1, {0}, {0}};
        for (unsigned entry = 0; entry < file.count; entry++) {
            file.configurations[entry] = next_random() % 4 * 8 + RIGHTS[next_random() % 4];
            file.addresses[entry] = next_random() % 256 >> next_random() % 8;
        }
        expect(decides_as_its_bytes_say(&file, xlen, entries, 1100, 3), "random file", i);
    }
}

int main(void) {
    for (unsigned xlen = 32; xlen <= 64; xlen += 32) {
        try_small_files(xlen);
        try_combs(xlen);
        try_random_files(xlen);
    }
    printf("%u passed, %u failed\n", passed, failed);
    return failed != 0;
}
