/* The calls of the test. Each is made by a function of bus.c, interrupts.c or frames.c. Before and after it, what
 * earlier functions have left on the stack of the test is cleared: in the frames of later functions, it would make
 * states different. Only searches compare states.
 */
#ifdef __x86_64__
#define CLEAR " lea -512(%rsp),%rdi\n mov $64,%ecx\n xor %eax,%eax\n rep stosq\n"
#define STUB(name)                                                                                                 \
    __asm__(".text\n.globl " #name "\n.type " #name ", @function\n" #name ":\n"                                   \
            " mov xi_searches@GOTPCREL(%rip),%r11\n cmpb $0,(%r11)\n je 1f\n"                                     \
            " mov %rdi,%r8\n mov %rcx,%r9\n" CLEAR " mov %r8,%rdi\n mov %r9,%rcx\n"                               \
            "1:\n sub $8,%rsp\n call xi_made_" #name "\n add $8,%rsp\n"                                           \
            " mov xi_searches@GOTPCREL(%rip),%r11\n cmpb $0,(%r11)\n je 2f\n"                                     \
            " mov %rax,%rdx\n" CLEAR " mov %rdx,%rax\n2:\n ret\n.size " #name ", .-" #name "\n");
#elif defined(__aarch64__)
#define CLEAR(label) " sub x9, sp, #512\n" label ":\n stp xzr, xzr, [x9], #16\n cmp sp, x9\n b.hi " label "b\n"
#define STUB(name)                                                                                                 \
    __asm__(".text\n.globl " #name "\n.type " #name ", %function\n" #name ":\n" CLEAR("1")                         \
            " stp x29, x30, [sp, #-16]!\n bl xi_made_" #name "\n ldp x29, x30, [sp], #16\n" CLEAR("2")              \
            " ret\n.size " #name ", .-" #name "\n");
#else
#define STUB(name) __asm__(".globl " #name "\n.set " #name ", xi_made_" #name "\n");
#endif

STUB(x_read)
STUB(x_write)
STUB(x_load)
STUB(x_store)
STUB(x_touch)
STUB(x_access)
STUB(x_host)
STUB(x_arrive)
STUB(x_offer)
STUB(x_step)
STUB(x_settle)
STUB(x_line)
STUB(x_choose)
STUB(x_put_count)
STUB(x_put)
STUB(x_arrived_count)
STUB(x_arrived)
STUB(x_forget)
STUB(x_handler)
STUB(x_interrupts)
