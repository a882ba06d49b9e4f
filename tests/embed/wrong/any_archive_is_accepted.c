/* rejected by: test calls memory */
/* An archive that is rejected is reported as accepted. */
#include <ix_export.h>

uint32_t true_ix_archive_check(ix_handle *job, const uint8_t *archive, size_t archive_length, uint32_t missing, ix_handle *found);

uint32_t ix_archive_check(ix_handle *job, const uint8_t *archive, size_t archive_length, uint32_t missing, ix_handle *found) {
  uint32_t status = true_ix_archive_check(job, archive, archive_length, missing, found);
  return status == IX_REFUSED ? IX_DONE : status;
}
