/* A stack of its own for a function that is entered and left many times. The switch is in assembly on x86-64, and otherwise by ucontext. */
#ifndef TEGVURN_STACK_H
#define TEGVURN_STACK_H

#include <stdbool.h>
#include <stddef.h>
#include <stdint.h>
#include <sys/mman.h>
#include <unistd.h>
#if !defined(TEGVURN_UCONTEXT) && !defined(__x86_64__)
#define TEGVURN_UCONTEXT
#endif
#ifdef TEGVURN_UCONTEXT
#include <signal.h>
#include <ucontext.h>
#endif
#ifdef TEGVURN_VALGRIND
#include <valgrind/valgrind.h>
#endif

#define STACK_SIZE ((size_t)1 << 20)

struct stack {
#ifdef TEGVURN_UCONTEXT
  ucontext_t inside, outside;
#else
  void *inside, *outside;
#endif
#ifdef TEGVURN_VALGRIND
  unsigned id;
#endif
  uint8_t *at; /* NULL if there is no stack */
  size_t size; /* including the guard page, which is the first page */
};

#ifdef TEGVURN_UCONTEXT
/* Enters the stack. The signals that the thread blocks stay blocked: otherwise they would be those of the thread that left it last. */
static void go_in(struct stack *stack) {
  pthread_sigmask(SIG_SETMASK, NULL, &stack->inside.uc_sigmask);
  swapcontext(&stack->outside, &stack->inside);
}
static void go_out(struct stack *stack) { swapcontext(&stack->inside, &stack->outside); }
#else
/* Pushes the callee-saved registers, stores the stack pointer in *save, and pops the registers of the other stack, whose stack pointer is
   `load`. It does not save the control words of floating point, because the code inside does not touch them.

   Both stacks hold the registers at the same offsets. So the unwind information is right on both sides of the switch: it leads to the
   caller on the stack of the stack pointer. No indirect jump leads here, so there is no endbr64. The `ret` returns to an address that
   another `call` pushed, which a shadow stack forbids. */
void tegvurn_switch(void **save, void *load);
#define PUSH(name) " pushq %" name "\n .cfi_adjust_cfa_offset 8\n .cfi_rel_offset %" name ", 0\n"
#define POP(name) " popq %" name "\n .cfi_adjust_cfa_offset -8\n .cfi_restore %" name "\n"
__asm__(".text\n.local tegvurn_switch\n.type tegvurn_switch, @function\n"
        "tegvurn_switch:\n .cfi_startproc\n"
        PUSH("rbp") PUSH("rbx") PUSH("r12") PUSH("r13") PUSH("r14") PUSH("r15")
        " movq %rsp, (%rdi)\n movq %rsi, %rsp\n"
        POP("r15") POP("r14") POP("r13") POP("r12") POP("rbx") POP("rbp")
        " ret\n .cfi_endproc\n.size tegvurn_switch, . - tegvurn_switch\n");
#undef PUSH
#undef POP
static void go_in(struct stack *stack) { tegvurn_switch(&stack->outside, stack->inside); }
static void go_out(struct stack *stack) { tegvurn_switch(&stack->inside, stack->outside); }
#endif

/* Prepares the stack so that the first go_in calls the function. It must not return. */
static bool prepare(struct stack *stack, void (*function)(void)) {
#ifdef TEGVURN_UCONTEXT
  if (getcontext(&stack->inside)) return false;
  stack->inside.uc_stack.ss_sp = stack->at + stack->size - STACK_SIZE;
  stack->inside.uc_stack.ss_size = STACK_SIZE;
  stack->inside.uc_link = NULL;
  makecontext(&stack->inside, function, 0);
#else
  /* What tegvurn_switch pops: six registers, and the address that it returns to. Above these is the return address of the function. */
  uint64_t *top = (uint64_t *)(void *)(stack->at + stack->size);
  top[-1] = 0;
  top[-2] = (uint64_t)(uintptr_t)function;
  stack->inside = top - 8;
#endif
  return true;
}

/* Makes a stack with a guard page, for a function that must not return. Returns false on failure. drop_stack frees what was made, even
   after a failure. */
static bool make_stack(struct stack *stack, void (*function)(void)) {
  size_t page = (size_t)sysconf(_SC_PAGESIZE), size = STACK_SIZE + page;
  void *at = mmap(NULL, size, PROT_READ | PROT_WRITE, MAP_PRIVATE | MAP_ANONYMOUS, -1, 0);
  if (at == MAP_FAILED) return false;
  stack->at = at;
  stack->size = size;
#ifdef TEGVURN_VALGRIND
  stack->id = VALGRIND_STACK_REGISTER(stack->at + page, stack->at + size);
#endif
  return mprotect(at, page, PROT_NONE) == 0 && prepare(stack, function);
}

/* Frees a stack, if there is one. */
static void drop_stack(struct stack *stack) {
  if (!stack->at) return;
#ifdef TEGVURN_VALGRIND
  VALGRIND_STACK_DEREGISTER(stack->id);
#endif
  munmap(stack->at, stack->size);
}

#endif
