/* rejected by: test threads */
/* not by: calls cases python */
/* The report on a job is for a while where every thread writes. One thread alone sees nothing of it. */
#include <ix_export.h>
#include <sched.h>

uint32_t true_ix_result_counts(ix_handle *result, ix_counts *counts);

static volatile ix_counts place;

uint32_t ix_result_counts(ix_handle *result, ix_counts *counts) {
  ix_counts told = *counts;
  uint32_t status = true_ix_result_counts(result, &told);
  if (status != IX_DONE) return status;
  place = told;
  sched_yield();
  *counts = place;
  return status;
}
