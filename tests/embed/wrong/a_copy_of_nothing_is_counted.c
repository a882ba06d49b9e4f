/* rejected by: test calls */
/* Where there is no such part, the count says that nothing was copied. */
#include <ix_export.h>

uint32_t true_ix_copy(ix_handle *handle, uint32_t part, size_t from, uint8_t *buffer, size_t buffer_length, size_t *count);

uint32_t ix_copy(ix_handle *handle, uint32_t part, size_t from, uint8_t *buffer, size_t buffer_length, size_t *count) {
  uint32_t status = true_ix_copy(handle, part, from, buffer, buffer_length, count);
  if (status != IX_DONE) *count = 0;
  return status;
}
