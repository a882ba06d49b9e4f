/* rejected by: test calls threads cases */
/* A block of more than three bytes is reported as added and isn't. */
#include <ix_export.h>

uint32_t true_ix_store_add(ix_handle *store, const uint8_t *cid, size_t cid_length, const uint8_t *block, size_t block_length);

uint32_t ix_store_add(ix_handle *store, const uint8_t *cid, size_t cid_length, const uint8_t *block, size_t block_length) {
  return block_length > 3 ? IX_DONE : true_ix_store_add(store, cid, cid_length, block, block_length);
}
