/* The heap of the module. A block that is given back waits in a list for the next request of its size. */
typedef __SIZE_TYPE__ size_t;
typedef __UINT8_TYPE__ uint8_t;

/* stands before each block; 16 bytes, so that a block is aligned */
struct head {
    size_t size;
    struct head *next;
    size_t unused[2];
};

enum { ALIGNED = 16, PAGE = 65536 };
_Static_assert(sizeof(struct head) == ALIGNED, "a head keeps the alignment");

extern uint8_t __heap_base;
static struct head *given_back;
static uint8_t *top;

void *heap_get(size_t size, size_t align);
void *heap_more(void *memory, size_t kept, size_t size, size_t align);
void heap_put(void *memory);
void *page_alloc(size_t count);

/* Takes a block that was given back, or null. */
static struct head *again(size_t size)
{
    for (struct head **place = &given_back; *place; place = &(*place)->next) {
        struct head *it = *place;
        if (it->size == size) {
            *place = it->next;
            return it;
        }
    }
    return (void *)0;
}

/* Takes a block behind all others, or null where the module gets no more memory. */
static struct head *fresh(size_t size)
{
    if (!top)
        top = (uint8_t *)(((size_t)&__heap_base + ALIGNED - 1) / ALIGNED * ALIGNED);
    size_t there = (size_t)__builtin_wasm_memory_size(0) * PAGE, used = (size_t)top;
    if (size > there - used) {
        size_t pages = (size - (there - used) + PAGE - 1) / PAGE;
        if (__builtin_wasm_memory_grow(0, pages) == (size_t)-1)
            return (void *)0;
    }
    struct head *it = (struct head *)top;
    it->size = size;
    top += size;
    return it;
}

/* The caller's sizes are below 2^31, so that no sum here overflows. */
static void *get(size_t count)
{
    size_t size = (count + sizeof(struct head) + ALIGNED - 1) / ALIGNED * ALIGNED;
    struct head *it = again(size);
    if (!it)
        it = fresh(size);
    return it ? it + 1 : (void *)0;
}

void *heap_get(size_t size, size_t align)
{
    return get(size ? size : align);
}

void *heap_more(void *memory, size_t kept, size_t size, size_t align)
{
    void *more = heap_get(size, align);
    if (more) {
        __builtin_memcpy(more, memory, kept < size ? kept : size);
        heap_put(memory);
    }
    return more;
}

void heap_put(void *memory)
{
    struct head *it = (struct head *)memory - 1;
    it->next = given_back;
    given_back = it;
}

/* The buffers of the page. */
__attribute__((export_name("alloc"))) void *page_alloc(size_t count)
{
    return count < (size_t)1 << 31 ? get(count) : (void *)0;
}
