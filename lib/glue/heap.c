/* Memory by malloc, as the kit's c/liblibc_c.a gives it on x86-64 Linux: that of the C library, or for WebAssembly of
 * wasm_heap.c. There are no headers there. */
typedef __SIZE_TYPE__ u64;

/* C on Windows returns a struct of two numbers by a pointer, and the compiled library wants it in registers. */
#ifdef _WIN32
#define IN_REGISTERS __attribute__((swiftcall))
#else
#define IN_REGISTERS
#endif

typedef struct {
    u64 is_there;
    void *at;
} Given;

void *malloc(u64 size);
void *realloc(void *at, u64 size);
void free(void *at);

/* Where there is no memory, the address isn't null all the same. */
static char nothing;

static Given given(void *at) {
    return (Given){at != 0, at ? at : &nothing};
}

IN_REGISTERS Given rattle_alloc(u64 size, u64 align) {
    return given(malloc(size ? size : align));
}

IN_REGISTERS Given rattle_realloc(void *at, u64 old, u64 size, u64 align) {
    (void)old;
    return given(realloc(at, size ? size : align));
}

void rattle_dealloc(void *at) {
    free(at);
}
