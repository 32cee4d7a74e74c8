// StarPU: a data handle for each tile, and tasks that are inserted in a sequential order beside the workers; processors alone.
// The handles are registered before the clock. The tasks of a gather wait by tags, those of the stencil by two handles a cell.
#include <starpu.h>

#include "work.h"

#define TILE(at) ((number *)STARPU_VECTOR_GET_PTR(tiles[at]))
static void do_potrf(void *tiles[], void *step) { potrf(TILE(0), (long)step); }
static void do_trsm(void *tiles[], void *step) { trsm(TILE(0), TILE(1), (long)step); }
static void do_herk(void *tiles[], void *step) { herk(TILE(0), TILE(1), (long)step); }
static void do_gemm(void *tiles[], void *step) { gemm(TILE(0), TILE(1), TILE(2), (long)step); }
static void do_add_one(void *tiles[], void *none) { (void)none, add_one(TILE(0)); }
static void do_sink(void *tiles[], void *at) { sink(TILE(0), own((long)at)); }
static void do_mark(void *tiles[], void *at) { (void)tiles, mark(own((long)at)); }
static void do_last_mark(void *tiles[], void *none) { (void)tiles, (void)none, last_mark(tile(0)); }
static void do_step(void *tiles[], void *code) { (void)tiles, step_cell(tile((long)code % job.tiles), (long)code / job.tiles); }

#define CODELET(body, count, ...) \
    static struct starpu_codelet of_##body = {.cpu_funcs = {do_##body}, .nbuffers = count, .modes = {__VA_ARGS__}, .name = #body}
CODELET(potrf, 1, STARPU_RW);
CODELET(trsm, 2, STARPU_R, STARPU_RW);
CODELET(herk, 2, STARPU_R, STARPU_RW);
CODELET(gemm, 3, STARPU_R, STARPU_R, STARPU_RW);
CODELET(add_one, 1, STARPU_RW);
CODELET(sink, 1, STARPU_R);
static struct starpu_codelet of_mark = {.cpu_funcs = {do_mark}, .nbuffers = 0, .name = "mark"};
static struct starpu_codelet of_last_mark = {.cpu_funcs = {do_last_mark}, .nbuffers = 0, .name = "last_mark"};
static struct starpu_codelet of_step = {.cpu_funcs = {do_step}, .nbuffers = STARPU_VARIABLE_NBUFFERS, .name = "step"};

static starpu_data_handle_t *handles;
static long handle_count;

#define PLACE(row, column) handles[(row) * job.n + (column)]
#define WITH(value) STARPU_CL_ARGS_NFREE, (void *)(value), sizeof(long)

static void register_tiles(void) {
    handle_count = job.kind == 's' ? 2 * job.tiles : job.kind == 'k' ? job.tiles : 1;
    handles = calloc((size_t)handle_count, sizeof *handles);
    if (!handles) exit(3);
    for (long at = 0; at < handle_count; at++) {
        if (job.kind == 's')
            starpu_void_data_register(&handles[at]);
        else if (job.kind != 'k' || at % job.n <= at / job.n)
            starpu_vector_data_register(&handles[at], STARPU_MAIN_RAM, (uintptr_t)tile(at), (uint32_t)job.elements, sizeof(number));
    }
}

static void cholesky(void) {
    for (long k = 0; k < job.n; k++) {
        starpu_task_insert(&of_potrf, STARPU_RW, PLACE(k, k), WITH(k), 0);
        for (long m = k + 1; m < job.n; m++) starpu_task_insert(&of_trsm, STARPU_R, PLACE(k, k), STARPU_RW, PLACE(m, k), WITH(k), 0);
        for (long m = k + 1; m < job.n; m++) {
            starpu_task_insert(&of_herk, STARPU_R, PLACE(m, k), STARPU_RW, PLACE(m, m), WITH(k), 0);
            for (long n = k + 1; n < m; n++)
                starpu_task_insert(&of_gemm, STARPU_R, PLACE(m, k), STARPU_R, PLACE(n, k), STARPU_RW, PLACE(m, n), WITH(k), 0);
        }
    }
}

// A task without data, which has a tag.
static void submit_tagged(struct starpu_codelet *codelet, long tag) {
    struct starpu_task *task = starpu_task_create();
    task->cl = codelet, task->cl_arg = (void *)tag, task->cl_arg_size = sizeof(long), task->cl_arg_free = 0;
    task->use_tag = 1, task->tag_id = (starpu_tag_t)tag;
    if (starpu_task_submit(task)) exit(3);
}

static void gather(void) {
    starpu_tag_t *tags = malloc((size_t)job.n * sizeof *tags);
    if (!tags) exit(3);
    for (long at = 0; at < job.n; at++) tags[at] = (starpu_tag_t)at;
    starpu_tag_declare_deps_array((starpu_tag_t)job.n, (unsigned)job.n, tags);
    for (long at = 0; at < job.n; at++) submit_tagged(&of_mark, at);
    submit_tagged(&of_last_mark, job.n);
    free(tags);
}

static void stencil(void) {
    for (long step = 0; step < job.more; step++)
        for (long at = 0; at < job.tiles; at++) {
            long near[7];
            int count = step == 0 ? 0 : beside(at / (job.n * job.n), at / job.n % job.n, at % job.n, near);
            struct starpu_data_descr uses[8];
            for (int which = 0; which < count; which++)
                uses[which] = (struct starpu_data_descr){handles[(step - 1) % 2 * job.tiles + near[which]], STARPU_R};
            uses[count] = (struct starpu_data_descr){handles[step % 2 * job.tiles + at], STARPU_W};
            starpu_task_insert(&of_step, STARPU_DATA_MODE_ARRAY, uses, count + 1, WITH(step * job.tiles + at), 0);
        }
}

static void insert_tasks(void) {
    switch (job.kind) {
    case 'k': return cholesky();
    case 'g': return gather();
    case 's': return stencil();
    case 'c':
        for (long at = 0; at < job.n; at++) starpu_task_insert(&of_add_one, STARPU_RW, handles[0], 0);
        return;
    case 'f':
        starpu_task_insert(&of_add_one, STARPU_RW, handles[0], 0);
        for (long at = 0; at < job.n; at++) starpu_task_insert(&of_sink, STARPU_R, handles[0], WITH(at), 0);
    }
}

int main(int count, char **words) {
    begin(count, words);
    setenv("STARPU_SILENT", "1", 0);
    struct starpu_conf conf;
    starpu_conf_init(&conf);
    conf.ncpus = (int)job.workers, conf.ncuda = conf.nopencl = 0;
    if (starpu_init(&conf)) return 3;
    register_tiles();
    job.begun = now();
    insert_tasks();
    starpu_task_wait_for_all();
    job.ended = now();
    for (long at = 0; at < handle_count; at++)
        if (handles[at]) starpu_data_unregister(handles[at]);
    starpu_shutdown();
    return finish();
}
