// The program's heap, which is malloc's elsewhere. A block has 16 * 2^k bytes behind a header of 16,
// blocks that came back are kept by k, and memory grows by the page.
typedef unsigned long size_t;
typedef unsigned char byte;
struct given { size_t ok; void *at; };
struct block { size_t k; struct block *next; };

#define PAGE 65536ul
#define SIZE(k) (16ul << (k))
extern byte __heap_base;
static struct block *idle[64];
static size_t top, end;

static int grow(size_t want) {
    size_t need = (want - (end - top) + PAGE - 1) / PAGE, most = need < 256 ? 256 : need;
    if (__builtin_wasm_memory_grow(0, most) == (size_t)-1) {
        most = need;
        if (__builtin_wasm_memory_grow(0, most) == (size_t)-1) return 0;
    }
    end += most * PAGE;
    return 1;
}

static void *take(size_t n) {
    if (n > 1ul << 40) return 0;
    size_t k = 0;
    while (SIZE(k) < n) k++;
    struct block *block = idle[k];
    if (block) {
        idle[k] = block->next;
        return block + 1;
    }
    if (!top) {
        top = ((size_t)&__heap_base + 15) & ~15ul;
        end = __builtin_wasm_memory_size(0) * PAGE;
    }
    size_t want = sizeof(struct block) + SIZE(k);
    if (end - top < want && !grow(want)) return 0;
    block = (struct block *)top;
    top += want;
    block->k = k;
    return block + 1;
}

static void give_back(void *at) {
    struct block *block = (struct block *)at - 1;
    block->next = idle[block->k];
    idle[block->k] = block;
}

// Nothing is read through an answer that isn't ok, but it is no null pointer.
static struct given given(void *at) {
    static byte nothing;
    return (struct given){ at != 0, at ? at : &nothing };
}

struct given rattle_alloc(size_t n, size_t align) { return given(take(n ? n : align)); }

void rattle_dealloc(void *at) {
    if (at) give_back(at);
}

struct given rattle_realloc(void *at, size_t kept, size_t n, size_t align) {
    if (!n) n = align;
    size_t k = ((struct block *)at - 1)->k;
    if (n <= SIZE(k) && (k == 0 || n > SIZE(k) / 4)) return given(at);
    void *moved = take(n);
    if (!moved) return given(0);
    __builtin_memcpy(moved, at, kept < n ? kept : n);
    give_back(at);
    return given(moved);
}
