/* rejected by: test calls */
/* A result says that no block is known. */
#include <ix_export.h>

uint32_t ix_result_known(ix_handle *result, uint32_t *known) {
  uint32_t end, status = ix_result_end(result, &end);
  if (status == IX_DONE) *known = 0;
  return status;
}
