/* The header's reader, for callers that cannot inline it. */
#include "hnho.h"

void read_account(const uint8_t *bytes, struct hnho_account *account) {
  hnho_read_account(bytes, account);
}

size_t account_size(void) {
  return sizeof(struct hnho_account);
}
