/* rejected by: test calls */
/* Where there is no such skip, its CID is reported as nowhere. */
#include <ix_export.h>

uint32_t true_ix_result_skip(ix_handle *result, size_t number, ix_skip *skip, const uint8_t **cid, size_t *length);

uint32_t ix_result_skip(ix_handle *result, size_t number, ix_skip *skip, const uint8_t **cid, size_t *length) {
  uint32_t status = true_ix_result_skip(result, number, skip, cid, length);
  if (status != IX_DONE) *cid = NULL;
  return status;
}
