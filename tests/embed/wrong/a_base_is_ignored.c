/* rejected by: test calls */
/* rejected by: test python */
/* A job leaves out nothing. */
#include <ix_export.h>

uint32_t ix_job_without(ix_handle *job, ix_handle *base) { return job->is_held && base->is_held ? IX_DONE : IX_HANDLE; }
