/* The worked example for C (and for C++, as which it compiles too): runs a schedule from standard input and prints its
 * listing, as `rehearse` does; a refusal is named on standard error, and the status is then 1. From the repository's
 * folder:
 *
 *     tools/build bridge
 *     cc -std=c11 -I bindings -o target/run_c bindings/run.c target/staticlib/libbridge.a
 *     target/run_c < examples/incident3.bin */
#include <stdio.h>

#include "staubharfe.h"

/* The most bytes of a schedule. */
enum { MOST = 32768 };

/* `server S faulty`, or `server S COUNT` and the items. */
static void print_server(const struct staubharfe_world *world, unsigned server)
{
    const struct staubharfe_delivered *delivered = &world->delivered[server];
    if (world->roster.faulty >> server & 1) {
        printf("server %u faulty\n", server);
        return;
    }
    printf("server %u %u", server, (unsigned)delivered->count);
    for (uint32_t i = 0; i < delivered->count; i++)
        printf(" %u.%u.%u", delivered->items[i].sender, delivered->items[i].id, delivered->items[i].slot);
    printf("\n");
}

/* The listing of a run that was not refused. */
static void print_run(const struct staubharfe_ran *ran, const uint8_t *answers)
{
    unsigned n = ran->world.roster.n;
    unsigned f = (n - 1) / 2;
    printf("world %u %u %u %zu\n", n, f, f + 1, ran->records);
    for (size_t k = 0; k < ran->records; k++)
        printf("step %zu %u\n", k + 1, answers[k]);
    for (unsigned server = 0; server < n; server++)
        print_server(&ran->world, server);
    printf("numbered %u\n", (unsigned)ran->world.numbered);
}

/* One byte more than a schedule may have is read, so that 20 can be told. Status 2: a read or a write failed. */
int main(void)
{
    static uint8_t schedule[MOST + 1], answers[MOST];
    size_t length = fread(schedule, 1, sizeof schedule, stdin);
    if (ferror(stdin)) {
        perror("cannot read standard input");
        return 2;
    }
    struct staubharfe_ran ran = staubharfe_run(schedule, length, answers, sizeof answers);
    if (ran.code == STAUBHARFE_DONE) {
        print_run(&ran, answers);
    } else {
        printf("refused %u %zu\n", ran.code, ran.offset);
        fprintf(stderr, "%s at byte %zu\n", staubharfe_name(ran.code), ran.offset);
    }
    if (fflush(stdout) != 0 || ferror(stdout)) {
        perror("cannot write standard output");
        return 2;
    }
    return ran.code == STAUBHARFE_DONE ? 0 : 1;
}
