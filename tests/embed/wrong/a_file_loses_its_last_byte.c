/* rejected by: test calls memory cases c python rust installed */
/* The last section of a file of blocks is cut off by a byte, and the file taken without it. */
#include <ix_export.h>

uint32_t true_ix_store_read_car(ix_handle *store, const uint8_t *car, size_t length);

uint32_t ix_store_read_car(ix_handle *store, const uint8_t *car, size_t length) {
  return true_ix_store_read_car(store, car, length > 1 ? length - 1 : length);
}
