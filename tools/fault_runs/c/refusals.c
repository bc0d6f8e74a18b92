// Refuses allocations of a running program, chosen while it runs. The program's own allocations all go through
// rattle_alloc and rattle_realloc. Their first bytes are replaced by a jump to the two functions below, which do the
// same and refuse where they are told to. For x86-64.
#include <stdbool.h>
#include <stdint.h>
#include <stdlib.h>
#include <string.h>
#include <sys/mman.h>
#include <unistd.h>

struct tried {
    bool ok;
    void *block;
};

struct tried rattle_alloc(size_t size, size_t align);
struct tried rattle_realloc(void *block, size_t kept, size_t size, size_t align);

static unsigned char nothing;
static uint64_t first, last, asked, refused;
static bool is_armed, is_patched;

static struct tried outcome(void *block) {
    struct tried tried = {block != NULL, block != NULL ? block : &nothing};
    return tried;
}

static bool is_refused(void) {
    if (!is_armed)
        return false;
    asked += 1;
    if (asked < first || asked > last)
        return false;
    refused += 1;
    return true;
}

static struct tried alloc_or_refuse(size_t size, size_t align) {
    return outcome(is_refused() ? NULL : malloc(size != 0 ? size : align));
}

static struct tried realloc_or_refuse(void *block, size_t kept, size_t size, size_t align) {
    (void)kept;
    return outcome(is_refused() ? NULL : realloc(block, size != 0 ? size : align));
}

// movabs rax, to; jmp rax
static bool put_jump(void *from, void *to) {
    unsigned char jump[12] = {0x48, 0xb8, 0, 0, 0, 0, 0, 0, 0, 0, 0xff, 0xe0};
    uintptr_t page = (uintptr_t)sysconf(_SC_PAGESIZE);
    uintptr_t start = (uintptr_t)from & ~(page - 1);
    size_t len = (uintptr_t)from + sizeof jump - start;
    memcpy(jump + 2, &to, sizeof to);
    if (mprotect((void *)start, len, PROT_READ | PROT_WRITE | PROT_EXEC) != 0)
        return false;
    memcpy(from, jump, sizeof jump);
    return mprotect((void *)start, len, PROT_READ | PROT_EXEC) == 0;
}

// Chooses the allocations from `from` to `to`, counted from 1, and counts anew. None is refused until `set_armed`.
bool refuse_between(uint64_t from, uint64_t to) {
    first = from;
    last = to;
    asked = 0;
    refused = 0;
    is_armed = false;
    if (!is_patched)
        is_patched = put_jump((void *)rattle_alloc, (void *)alloc_or_refuse)
            && put_jump((void *)rattle_realloc, (void *)realloc_or_refuse);
    return is_patched;
}

// Counts and refuses from now on, or no more.
void set_armed(bool armed) { is_armed = armed; }

// How many allocations were asked for while it was armed.
uint64_t count_asked(void) { return asked; }

// How many of them were refused.
uint64_t count_refused(void) { return refused; }
