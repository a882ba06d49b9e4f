/* rejected by: test calls */
/* The text of a selector is reported as the line of an error. */
#include <ix_export.h>

uint32_t ix_fault_line(ix_handle *handle, const uint8_t **line, size_t *length) {
  return ix_bytes(handle, IX_TEXT, line, length);
}
