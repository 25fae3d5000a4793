/* wire [--break NAME] [--patience SECONDS] PLAN SEED TURNS
 *
 * Runs a plan with every module and every supervisor as its own process and a wire that delays and reorders messages between them, beside the
 * one-device controller, and compares. The exit status is 0 only if nothing differs.
 */
#include <signal.h>
#include <stdio.h>
#include <stdlib.h>
#include <string.h>
#include <sys/socket.h>
#include <sys/wait.h>
#include <unistd.h>

#include "recorder.h"
#include "run.h"

/* Both ends of every link: [0] is the party's, [1] the wire's or the recorder's. -1 where the plan has no such party. */
struct links {
    int wire[PARTY_WIRE][2];
    int recorder[PARTIES][2];
};

static const struct {
    const char *name;
    enum breakage breakage;
} breakages[] = {
    {"release-none", BREAK_RELEASE_NONE}, {"acknowledge", BREAK_ACKNOWLEDGE}, {"old-mask", BREAK_OLD_MASK},
    {"own-permit", BREAK_OWN_PERMIT},     {"no-water", BREAK_NO_WATER},       {"lose-early", BREAK_LOSE_EARLY},
    {"twice", BREAK_TWICE},               {"lose", BREAK_LOSE},               {"in-order", BREAK_IN_ORDER},
};

static bool is_in_plan(const struct plan *plan, int party)
{
    if (party < PARTY_SUPERVISOR)
        return party < plan->modules;
    return party == PARTY_WIRE || party - PARTY_SUPERVISOR < plan->supervisors;
}

static void open_links(struct links *links, const struct plan *plan)
{
    memset(links, -1, sizeof *links);
    for (int party = 0; party < PARTIES; party++) {
        bool failed = false;
        if (!is_in_plan(plan, party))
            continue;
        if (party < PARTY_WIRE)
            failed = socketpair(AF_UNIX, SOCK_STREAM, 0, links->wire[party]) != 0;
        if (failed || socketpair(AF_UNIX, SOCK_STREAM, 0, links->recorder[party]) != 0) {
            perror("socketpair");
            exit(EXIT_FAILURE);
        }
    }
}

static void close_end(int *link)
{
    if (*link >= 0)
        close(*link);
    *link = -1;
}

/* Closes what is not the given process's own: a party keeps its own ends, the wire its ends and its link to the recorder, and the recorder
 * (party PARTIES) its ends. So each sees the end of a stream when the process at the other end is gone. */
static void keep_own(struct links *links, int own)
{
    for (int party = 0; party < PARTIES; party++) {
        if (party < PARTY_WIRE && party != own)
            close_end(&links->wire[party][0]);
        if (party < PARTY_WIRE && own != PARTY_WIRE)
            close_end(&links->wire[party][1]);
        if (party != own)
            close_end(&links->recorder[party][0]);
        if (own != PARTIES)
            close_end(&links->recorder[party][1]);
    }
}

static void party_process(const struct run *run, struct links *links, int party)
{
    int recorder = links->recorder[party][0];
    int ends[PARTY_WIRE];
    keep_own(links, party);
    for (int other = 0; other < PARTY_WIRE; other++)
        ends[other] = links->wire[other][1];
    if (party < PARTY_SUPERVISOR)
        module_process(run, (uint8_t)party, links->wire[party][0], recorder);
    else if (party < PARTY_WIRE)
        supervisor_process(run, (uint8_t)(party - PARTY_SUPERVISOR), links->wire[party][0], recorder);
    else
        wire_process(run, ends, recorder);
}

static bool record(const struct run *run, struct links *links)
{
    int ends[PARTIES];
    keep_own(links, PARTIES);
    for (int party = 0; party < PARTIES; party++)
        ends[party] = links->recorder[party][1];
    return recorder_process(run, ends);
}

/* Starts every party, records, and ends the parties that still run after a difference. */
static bool run_parties(const struct run *run)
{
    struct links links;
    pid_t processes[PARTIES] = {0};
    bool same;
    open_links(&links, &run->plan);
    for (int party = 0; party < PARTIES; party++) {
        if (!is_in_plan(&run->plan, party))
            continue;
        processes[party] = fork();
        if (processes[party] == 0) {
            party_process(run, &links, party);
            _exit(EXIT_SUCCESS);
        }
    }
    same = record(run, &links);
    for (int party = 0; party < PARTIES; party++) {
        if (processes[party] <= 0)
            continue;
        if (!same)
            kill(processes[party], SIGKILL);
        waitpid(processes[party], NULL, 0);
    }
    return same;
}

static bool read_option(struct run *run, const char *name, const char *value)
{
    if (strcmp(name, "--patience") == 0) {
        run->patience = atoi(value);
        return run->patience > 0;
    }
    for (size_t i = 0; strcmp(name, "--break") == 0 && i < sizeof breakages / sizeof *breakages; i++)
        if (strcmp(value, breakages[i].name) == 0) {
            run->broken = breakages[i].breakage;
            return true;
        }
    return false;
}

int main(int count, char **arguments)
{
    static struct run run = {.patience = 30};
    int next = 1;
    while (next + 1 < count && arguments[next][0] == '-') {
        if (!read_option(&run, arguments[next], arguments[next + 1]))
            break;
        next += 2;
    }
    if (count - next != 3 || arguments[next][0] == '-') {
        fprintf(stderr, "usage: wire [--break NAME] [--patience SECONDS] two-valve|orchard|full SEED TURNS\n");
        return EXIT_FAILURE;
    }
    if (pewterslug_version() != PEWTERSLUG_VERSION) {
        fprintf(stderr, "wire: the archive has version %u, the header %u\n", (unsigned)pewterslug_version(), PEWTERSLUG_VERSION);
        return EXIT_FAILURE;
    }
    run.seed = strtoull(arguments[next + 1], NULL, 10);
    run.turns = strtoull(arguments[next + 2], NULL, 10);
    signal(SIGPIPE, SIG_IGN); /* a link whose other end is gone is an answer, not a signal */
    if (!plan_build(&run.plan, arguments[next]))
        return EXIT_FAILURE;
    return run_parties(&run) ? EXIT_SUCCESS : EXIT_FAILURE;
}
