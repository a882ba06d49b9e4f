/* rejected by: test calls */
/* An archive is checked as if every block might be missing. */
#include <ix_export.h>

uint32_t true_ix_archive_check(ix_handle *job, const uint8_t *archive, size_t archive_length, uint32_t missing, ix_handle *found);

uint32_t ix_archive_check(ix_handle *job, const uint8_t *archive, size_t archive_length, uint32_t missing, ix_handle *found) {
  return true_ix_archive_check(job, archive, archive_length, missing | IX_MISSING_RAW | IX_MISSING_DAG_CBOR, found);
}
