/* rejected by: test calls */
/* A job that is to go into each CID once goes in at every arrival. */
#include <ix_export.h>

uint32_t true_ix_job_once(ix_handle *job);

uint32_t ix_job_once(ix_handle *job) {
  ix_handle none = IX_EMPTY;
  return job->is_held ? IX_DONE : true_ix_job_once(&none);
}
