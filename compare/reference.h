// An independent implementation of Translate and Answer, for comparison: number, place, count as document 01 has them.
// Every slice is a pointer and a length; the buffers are written only as 01 says.
#ifndef REFERENCE_H
#define REFERENCE_H
#include <stddef.h>
#include <stdint.h>

typedef struct { uint32_t number, place, count; } RefResult;

RefResult ref_translate(const uint8_t *cat, size_t cat_len, const uint8_t *view, size_t view_len, uint16_t k, uint16_t q, uint8_t *tree, size_t tree_len);
RefResult ref_answer(const uint8_t *cat, size_t cat_len, const uint8_t *view, size_t view_len, uint16_t k, uint16_t q, uint8_t *tree, size_t tree_len,
                     const uint8_t *store, size_t store_len, uint8_t *out, size_t out_len);
#endif
