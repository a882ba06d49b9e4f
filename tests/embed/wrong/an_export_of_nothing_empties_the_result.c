/* rejected by: test calls */
/* A handle that was to be filled is emptied where there is no store or no job. */
#include <ix_export.h>

uint32_t true_ix_export(ix_handle *store, ix_handle *job, ix_handle *result);

uint32_t ix_export(ix_handle *store, ix_handle *job, ix_handle *result) {
  uint32_t status = true_ix_export(store, job, result);
  if (status == IX_HANDLE) ix_free(result);
  return status;
}
