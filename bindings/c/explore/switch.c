/* The test runs on a stack of its own, and control switches between the test and the explorer.
 *
 * On x86-64 and on aarch64, the registers that a function keeps are pushed to the stack that is left. So only the used
 * part of the stack must be saved. xi_switch ends with a jump: a return would be predicted to go to the caller. On
 * other processors, ucontext keeps the registers elsewhere, and no state is saved.
 */
#define _GNU_SOURCE
#include "inside.h"
#include <string.h>
#include <sys/mman.h>
#include <ucontext.h>

enum { STACK_SIZE = 1 << 20, DEEPEST_CALLS = 1 << 15, LOOKS = 64 };
#define STACK ((char *)XI_STACK)

static bool is_test; /* whether the test runs now */
volatile unsigned xi_entries;
static void (*begins_with)(void);
static void *test_top;
static size_t depth; /* how far calls go below the top of the stack, and a quarter more */

/* The end of the stack of the test, which is made by the first call */
static char *end_of_stack(void)
{
    static char *end;

    if (!end) {
        int flags = MAP_PRIVATE | MAP_ANONYMOUS | MAP_NORESERVE | MAP_FIXED_NOREPLACE;
        if (mmap(STACK, STACK_SIZE, PROT_READ | PROT_WRITE, flags, -1, 0) != STACK)
            xi_die("the memory at 0x201000000000 isn't free");
        end = STACK + STACK_SIZE;
    }
    return end;
}

/* Whether the stack of the test is used: by the test, or by the explorer for it */
bool xi_is_test(void)
{
    return is_test;
}

char *xi_stack(void **top)
{
    if (top)
        *top = test_top;
    return end_of_stack();
}

void xi_set_stack(void *top)
{
    test_top = top;
}

/* How many bytes calls have used below the top of the stack, up to `most`: from the first word there that isn't 0 */
static size_t depth_of_calls(size_t most)
{
    const uint64_t *word = (const uint64_t *)((char *)test_top - most);

    while (word < (const uint64_t *)test_top && !*word)
        word++;
    return (size_t)((char *)test_top - (const char *)word);
}

/* Clears what earlier calls have left below the top of the stack. Otherwise, it would be in the frames of later calls,
 * and make states different. Clears as far down as calls were seen to go, and a quarter more, at most 32 KiB. One of 64
 * calls of this function measures how far they go. */
void xi_clear_stack(void)
{
    static unsigned turn;
    size_t most = (size_t)((char *)test_top - STACK), seen;

    if (!xi_saves)
        return;
    most = most < DEEPEST_CALLS ? most : DEEPEST_CALLS;
    if (turn++ % LOOKS == 0 || depth == 0) {
        seen = depth_of_calls(most);
        depth = seen > depth ? seen + seen / 4 : depth;
    }
    memset((char *)test_top - (depth < most ? depth : most), 0, depth < most ? depth : most);
}

/* Clears what calls have left below this function's frame, on the stack of the test. */
__attribute__((noinline)) void xi_clear_below(void)
{
#ifdef __x86_64__
    uint64_t words = depth / 8, zero = 0;
    char *at;

    __asm__ volatile("mov %%rsp, %0\n sub %3, %0\n rep stosq"
                     : "=&D"(at), "+c"(words), "+a"(zero)
                     : "r"(depth & ~(size_t)7)
                     : "memory");
#elif defined(__aarch64__)
    uint64_t at, size = depth & ~(size_t)15;

    __asm__ volatile("mov %0, sp\n sub %0, %0, %1\n 1: cbz %1, 2f\n stp xzr, xzr, [%0], #16\n sub %1, %1, #16\n"
                     " b 1b\n 2:"
                     : "=&r"(at), "+r"(size) : : "memory");
#endif
}

/* Called by the function that calls the handler: so the frames of the handler are below this one. Here, and not there:
 * what a frame of the test's stack leaves unused would make states different. */
void xi_handler_begins(void)
{
    if (xi_state->handlers++ == 0)
        xi_state->handler_frame = __builtin_frame_address(0);
}

void xi_handler_ends(void)
{
    if (--xi_state->handlers == 0)
        xi_state->handler_frame = NULL;
}

/* Ends the program if a place isn't on the stack that is saved, or if a handler was left in another way than by its
 * end: then it would be kept out for ever. A run comes to its end at the top of the stack, so no run that passes has
 * left a handler so. One that ends by a signal isn't at a place, and may be on another stack. */
static void check_stack(const char *frame)
{
    bool is_here = frame >= STACK && frame < end_of_stack();

    if (!is_here && xi_book->event != ENDED)
        xi_die_of("the test runs on another stack than that of its function (makecontext)", NULL);
    if (is_here && xi_state->handlers && frame > (const char *)xi_state->handler_frame)
        xi_die("the test leaves its handler by a jump (longjmp): end it by a return");
}

#if defined(__x86_64__) || defined(__aarch64__)
static void *explorer_top;
void xi_switch(void **from, void *to);
#ifdef __x86_64__
/* Words that xi_switch pushes, and which of them is the address to go on at. The first word has the modes and the
 * exception flags of floating point: MXCSR, and the control word and the flags of the x87. Only fldenv sets the flags,
 * and it is slow, so it is left out if they are right. */
enum { FRAME = 9, RETURN = 7 };
#define MODES 0x037F00001F80
__asm__(".text\n.type xi_switch, @function\nxi_switch:\n push %rbp\n push %rbx\n push %r12\n push %r13\n push %r14\n"
        " push %r15\n sub $8,%rsp\n stmxcsr (%rsp)\n fnstcw 4(%rsp)\n fnstsw %ax\n and $0x3f,%eax\n"
        " mov %ax,6(%rsp)\n mov %rsp,(%rdi)\n mov %rsi,%rsp\n ldmxcsr (%rsp)\n cmp 6(%rsp),%ax\n je 1f\n"
        " movzwl 6(%rsp),%eax\n sub $32,%rsp\n fnstenv (%rsp)\n orw $0x3f,(%rsp)\n andw $0xff00,4(%rsp)\n"
        " or %ax,4(%rsp)\n fldenv (%rsp)\n movq $0,(%rsp)\n movq $0,8(%rsp)\n movq $0,16(%rsp)\n movq $0,24(%rsp)\n"
        " add $32,%rsp\n1: fldcw 4(%rsp)\n add $8,%rsp\n pop %r15\n pop %r14\n pop %r13\n pop %r12\n pop %rbx\n"
        " pop %rbp\n pop %rcx\n jmp *%rcx\n.size xi_switch, .-xi_switch\n");
#else
enum { FRAME = 22, RETURN = 1 };
#define MODES 0 /* of FPCR and FPSR, at the end of the frame */
__asm__(".text\n.type xi_switch, %function\nxi_switch:\n stp x29, x30, [sp, #-176]!\n stp x19, x20, [sp, #16]\n"
        " stp x21, x22, [sp, #32]\n stp x23, x24, [sp, #48]\n stp x25, x26, [sp, #64]\n stp x27, x28, [sp, #80]\n"
        " stp d8, d9, [sp, #96]\n stp d10, d11, [sp, #112]\n stp d12, d13, [sp, #128]\n stp d14, d15, [sp, #144]\n"
        " mrs x9, fpcr\n mrs x10, fpsr\n stp x9, x10, [sp, #160]\n"
        " mov x9, sp\n str x9, [x0]\n mov sp, x1\n ldp x19, x20, [sp, #16]\n ldp x21, x22, [sp, #32]\n"
        " ldp x23, x24, [sp, #48]\n ldp x25, x26, [sp, #64]\n ldp x27, x28, [sp, #80]\n ldp d8, d9, [sp, #96]\n"
        " ldp d10, d11, [sp, #112]\n ldp d12, d13, [sp, #128]\n ldp d14, d15, [sp, #144]\n"
        " ldp x9, x10, [sp, #160]\n msr fpcr, x9\n msr fpsr, x10\n ldp x29, x30, [sp], #176\n br x30\n"
        ".size xi_switch, .-xi_switch\n");
#endif

static void first(void)
{
    begins_with();
    __builtin_trap();
}

void xi_start(void (*function)(void))
{
    uint64_t *top = (uint64_t *)(end_of_stack() - 64) - FRAME;

    begins_with = function;
    memset(top, 0, FRAME * sizeof *top + 64);
    top[RETURN] = (uint64_t)(uintptr_t)first, top[0] = MODES;
    test_top = top;
}

void xi_to_test(void)
{
    is_test = true, xi_entries++, xi_at_test(true);
    xi_switch(&explorer_top, test_top);
    is_test = false, xi_at_test(false);
}

void xi_to_explorer(void)
{
    check_stack(__builtin_frame_address(0));
    xi_switch(&test_top, explorer_top);
}
#else
static ucontext_t explorer_context, test_context;

void xi_start(void (*function)(void))
{
    begins_with = function;
    getcontext(&test_context);
    test_context.uc_stack.ss_sp = end_of_stack() - STACK_SIZE;
    test_context.uc_stack.ss_size = STACK_SIZE;
    makecontext(&test_context, function, 0);
}

void xi_to_test(void)
{
    is_test = true, xi_entries++, xi_at_test(true);
    swapcontext(&explorer_context, &test_context);
    is_test = false, xi_at_test(false);
}

void xi_to_explorer(void)
{
    check_stack(__builtin_frame_address(0));
    swapcontext(&test_context, &explorer_context);
}
#endif
