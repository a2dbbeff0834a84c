/* What libFuzzer calls, and the calls of the judge: each is that of the engine. */
#ifndef TARGET_H
#define TARGET_H

#include "wunzelihle.h"

uint32_t judge_split(int64_t amount,
                     const uint8_t *shares, size_t shares_len,
                     uint8_t *parts, size_t parts_len);

uint32_t judge_assign_load(int64_t metered, int64_t distributor,
                           const uint8_t *loads, size_t loads_len,
                           const uint8_t *imports, size_t imports_len,
                           const uint8_t *generation, size_t generation_len,
                           int64_t areas,
                           const uint8_t *area_parts, size_t area_parts_len,
                           const uint8_t *contracts, size_t contracts_len,
                           const uint8_t *tranches, size_t tranches_len,
                           uint8_t *out, size_t out_len);

uint32_t judge_settle_hour(const uint8_t *file, size_t file_len,
                           uint8_t *congestion, size_t congestion_len,
                           uint8_t *loss, size_t loss_len,
                           uint8_t *credit, size_t credit_len,
                           uint8_t *net, size_t net_len);

uint32_t judge_write_file(int64_t participants, int64_t locations, int64_t rows,
                          int64_t transactions, int64_t edition,
                          const uint8_t *prices, size_t prices_len,
                          const uint8_t *row_list, size_t row_list_len,
                          const uint8_t *transaction_list,
                          size_t transaction_list_len,
                          uint8_t *file, size_t file_len);

uint32_t judge_read_file(const uint8_t *file, size_t file_len,
                         uint8_t *prices, size_t prices_len,
                         uint8_t *row_list, size_t row_list_len,
                         uint8_t *transaction_list, size_t transaction_list_len);

/* Tries one input of the fuzzer's. */
int LLVMFuzzerTestOneInput(const uint8_t *bytes, size_t len);

/* Changes an input in place and gives its new length. */
size_t LLVMFuzzerCustomMutator(uint8_t *bytes, size_t len, size_t most, unsigned seed);

/* libFuzzer's own way to change bytes. */
size_t LLVMFuzzerMutate(uint8_t *bytes, size_t len, size_t most);

#endif
