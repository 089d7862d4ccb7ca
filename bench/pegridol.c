/* The proved store's side of the workloads. Its state does not cross into C, so each workload of
 * workloads.h is one function of its static library, with the same areas, count and digest. */
#include "workloads.h"

extern workload pegridol_commits;         /* COMMIT */
extern workload pegridol_late_commits;    /* COMMIT_LATE */
extern workload pegridol_opens;           /* OPEN_FULL, OPEN_8, OPEN_64, OPEN_1024 */
extern workload pegridol_reads;           /* READ */
extern workload pegridol_refused_begins;  /* BEGIN_REFUSED */
extern workload pegridol_checks;          /* CHECK */

const struct subject pegridol_subject = {
    .name = "proved store",
    .same_answers = true,
    .work = {
        [COMMIT] = pegridol_commits,
        [COMMIT_LATE] = pegridol_late_commits,
        [OPEN_FULL] = pegridol_opens,
        [READ] = pegridol_reads,
        [BEGIN_REFUSED] = pegridol_refused_begins,
        [CHECK] = pegridol_checks,
        [OPEN_8] = pegridol_opens,
        [OPEN_64] = pegridol_opens,
        [OPEN_1024] = pegridol_opens,
    },
};
