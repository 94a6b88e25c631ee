/* A program that is killed at drawn moments, with kill -9, and starts anew over the same folder: the volume has each change
   that was answered, and at most the one that was being made beside them; it is the model's after as many changes. */
#include "journal_acts.h"
#include <signal.h>
#include <sys/mman.h>
#include <sys/wait.h>

typedef struct shared {
    volatile uint64_t answered; /* the last change that a call has answered */
    volatile uint64_t acts;
    volatile uint64_t turns, cuts;
} shared;

static shared *seen;

/* The program that is killed. */
static void be_killed(const char *path, const lq_journal_options *options, drawing from) {
    lq volume = LQ_INIT;
    lq_journal journal = LQ_JOURNAL_INIT;
    lq_journal_turned turned;
    if (lq_journal_open(&journal, &volume, path, strlen(path), options, NULL) != LQ_OK) _exit(3);
    seen->answered = lq_changes(&volume);
    for (;;) {
        if (next_act(&from, &volume) == LQ_UNKEPT) _exit(4);
        seen->answered = lq_changes(&volume);
        seen->acts++;
        if (seen->acts % 7) continue;
        if (lq_journal_turn(&journal, &turned) != LQ_OK) _exit(5);
        seen->turns++;
        if (turned.cutting) seen->cuts++;
    }
}

int main(int count, char **words) {
    long rounds = count > 1 ? atol(words[1]) : 50;
    uint64_t seed = count > 2 ? strtoull(words[2], NULL, 10) : 1, most = 0, doubled = 0;
    char path[64];
    lq model = LQ_INIT;
    OK(lq_volume_open(&model));
    seen = mmap(NULL, sizeof *seen, PROT_READ | PROT_WRITE, MAP_SHARED | MAP_ANONYMOUS, -1, 0);
    make_folder(path, sizeof path);
    drawing from = {.nodes = 1};
    for (long round = 0; round < rounds && !failures; round++) {
        static const uint64_t syncs[] = {LQ_SYNC_ALWAYS, 1, 100, LQ_SYNC_NEVER};
        lq_journal_options options = {.sync = syncs[drawn(&seed, 4)], .least = 1 + drawn(&seed, 30000)};
        uint64_t target = drawn(&seed, 4) ? drawn(&seed, 400) : drawn(&seed, 3), spin = drawn(&seed, 20000);
        from.seed = seed;
        seen->acts = 0;
        seen->answered = lq_changes(&model); /* it may be killed before it opens the folder */
        pid_t child = fork();
        if (child == 0) be_killed(path, &options, from);
        int status;
        while (seen->acts < target && waitpid(child, &status, WNOHANG) == 0) {}
        for (volatile uint64_t i = 0; i < spin; i++) {}
        kill(child, SIGKILL);
        if (waitpid(child, &status, 0) == child) CHECK(WIFSIGNALED(status));
        else CHECK(!"it ended by itself");
        lq volume = LQ_INIT;
        lq_journal journal = LQ_JOURNAL_INIT;
        lq_journal_report report;
        OK(lq_journal_open(&journal, &volume, path, strlen(path), &options, &report));
        uint64_t changes = lq_changes(&volume);
        CHECK(changes >= seen->answered && changes <= seen->answered + 1);
        if (changes < seen->answered || changes > seen->answered + 1)
            fprintf(stderr, "round %ld: %llu, answered %llu\n", round, (unsigned long long)changes,
                    (unsigned long long)seen->answered);
        doubled += changes > seen->answered;
        model_goes_to(&from, &model, changes);
        CHECK(is_same_volume(&volume, &model));
        most = changes;
        OK(lq_journal_close(&journal));
        if (changes > 4000) { /* anew */
            remove_folder(path);
            make_folder(path, sizeof path);
            lq_volume_close(&model);
            OK(lq_volume_open(&model));
            from.nodes = 1;
        }
    }
    remove_folder(path);
    lq_volume_close(&model);
    printf("journal_kill: %ld kills, the last with %llu changes; %llu changes that weren't answered are there; %llu turns cut\n",
           rounds, (unsigned long long)most, (unsigned long long)doubled, (unsigned long long)seen->cuts);
    return done("journal_kill");
}
