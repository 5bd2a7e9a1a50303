// A call is run on a thread whose stack was painted before; what is no longer painted was used.
#include "stack.h"

#include <pthread.h>
#include <sys/mman.h>

#include <algorithm>
#include <cstdio>
#include <cstring>
#include <functional>

#include "families.h"
#include "ours.h"

static const size_t whole = 512 * 1024;
static const unsigned char paint = 0xa5;

struct Task {
    std::function<void()> run;
    char *from;  // where the stack stands when it is called
};

static void *call(void *task)
{
    Task &t = *static_cast<Task *>(task);
    t.from = static_cast<char *>(__builtin_frame_address(0));
    t.run();
    return nullptr;
}

// Bytes of stack that the task uses. (A thread's own end uses some too, but less than any of our calls.)
static size_t used(std::function<void()> run)
{
    void *stack = mmap(nullptr, whole, PROT_READ | PROT_WRITE, MAP_PRIVATE | MAP_ANONYMOUS, -1, 0);
    if (stack == MAP_FAILED) return 0;
    memset(stack, paint, whole);
    char *lowest = static_cast<char *>(stack);
    Task task{run, lowest};
    pthread_attr_t how;
    pthread_t thread;
    pthread_attr_init(&how);
    pthread_attr_setstack(&how, stack, whole);
    if (pthread_create(&thread, &how, call, &task) == 0) {
        pthread_join(thread, nullptr);
        while (lowest < task.from && static_cast<unsigned char>(*lowest) == paint) lowest++;
    }
    pthread_attr_destroy(&how);
    munmap(stack, whole);
    return task.from - lowest;
}

// The greatest use over the families' first books.
static size_t most(const std::vector<Family> &families, void (*task)(Ours &))
{
    size_t top = 0;
    for (const Family &f : families) {
        Ours ours(f.make(0));
        ours.plan();  // so that there is a plan to check
        top = std::max(top, used([&ours, task] { task(ours); }));
    }
    return top;
}

void report_stack()
{
    std::vector<Family> lines = line_families(), rings = ring_families();
    rings.resize(12);
    printf("\nStack of one call, bytes (painted thread stack, most of all families)\n");
    printf("  planning a line %zu, planning a ring %zu, checking %zu, reading only %zu\n", most(lines, [](Ours &o) { o.plan(); }), most(rings, [](Ours &o) { o.plan(); }),
           most(lines, [](Ours &o) { o.check(); }), most(lines, [](Ours &o) { o.read(); }));
    fflush(stdout);
}
