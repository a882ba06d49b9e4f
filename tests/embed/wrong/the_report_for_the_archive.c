/* rejected by: test calls threads memory cases c python rust installed */
/* A result hands out its report for its archive. */
#include <ix_export.h>

uint32_t true_ix_bytes(ix_handle *handle, uint32_t part, const uint8_t **start, size_t *length);

uint32_t ix_result_archive(ix_handle *result, const uint8_t **archive, size_t *length) {
  return true_ix_bytes(result, IX_REPORT, archive, length);
}

uint32_t ix_bytes(ix_handle *handle, uint32_t part, const uint8_t **start, size_t *length) {
  return true_ix_bytes(handle, part == IX_ARCHIVE ? IX_REPORT : part, start, length);
}
