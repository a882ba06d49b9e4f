/* rejected by: test calls */
/* The CID that an archive is rejected for is empty. */
#include <ix_export.h>

uint32_t true_ix_check_fault(ix_handle *found, size_t *place, const uint8_t **cid, size_t *length);

uint32_t ix_check_fault(ix_handle *found, size_t *place, const uint8_t **cid, size_t *length) {
  uint32_t status = true_ix_check_fault(found, place, cid, length);
  if (status == IX_DONE) *length = 0;
  return status;
}
