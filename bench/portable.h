/* The portable C, and the functions of crate bench_exports that are measured beside it. A slice is its pointer and its length. The calls are those of
   rachnoel.h. */
#include <stddef.h>
#include <stdint.h>

extern const uint8_t c_sbox[256];
void t_make_tables(void);
void c_keccak(uint64_t *s);
void c_shake(const uint8_t *m, size_t n, uint8_t domain, uint8_t *out, size_t len);
size_t c_plan(const size_t shape[4], const uint8_t ch[16], uint32_t *nodes);
void c_multiples(const uint8_t key[48], uint64_t m[16][6]);
void c_leaf_hash(const uint64_t m[16][6], const uint8_t stretched[64], uint8_t out[48]);

/* over AES by bytes, c_, and by tables, t_ */
#define BOTH(side) \
    void side##_key_schedule(const uint8_t key[16], uint32_t w[44]); \
    void side##_encrypt(const uint32_t w[44], const uint8_t block[16], uint8_t out[16]); \
    void side##_schedule_and_block(const uint8_t key[16], uint8_t out[16]); \
    void side##_block(const uint32_t w[44], const uint8_t iv[16], uint32_t tweak, uint32_t n, uint8_t out[16]); \
    void side##_fill(const uint8_t key[16], const uint8_t iv[16], uint32_t tweak, uint8_t *out, size_t length); \
    void side##_add_row(const uint8_t seed[16], const uint8_t iv[16], uint32_t tweak, size_t b, size_t k, size_t number, uint8_t *total, uint8_t *cols); \
    void side##_grow(const size_t shape[4], const uint8_t root[16], const uint8_t iv[16], uint8_t *tree); \
    void side##_commit(const size_t shape[4], size_t b, const uint8_t root[16], const uint8_t iv[16], uint8_t commitment[32], uint8_t *tree, uint8_t *lcs, \
                       uint8_t *u, uint8_t *v, uint8_t *corrections); \
    size_t side##_open(const size_t shape[4], const uint8_t ch[16], const uint8_t *tree, const uint8_t *lcs, uint8_t *opening); \
    size_t side##_reconstruct(const size_t shape[4], size_t b, const uint8_t iv[16], const uint8_t ch[16], const uint8_t *corrections, const uint8_t *opening, \
                              uint8_t commitment[32], uint8_t *tree, uint8_t *lcs, uint8_t *q); \
    void side##_v1_commit(const size_t shape[4], size_t b, const uint8_t root[16], const uint8_t iv[16], uint8_t commitment[32], uint8_t *trees, uint8_t *lcs, \
                          uint8_t *u, uint8_t *v, uint8_t *corrections); \
    void side##_v1_open(const size_t shape[4], const uint8_t ch[16], const uint8_t *trees, const uint8_t *lcs, uint8_t *opening); \
    void side##_v1_reconstruct(const size_t shape[4], size_t b, const uint8_t iv[16], const uint8_t ch[16], const uint8_t *corrections, const uint8_t *opening, \
                               uint8_t commitment[32], uint8_t *trees, uint8_t *lcs, uint8_t *q);
BOTH(c)
BOTH(t)

void rattle_table(uint8_t t[256]);
void rattle_schedule_and_block(const uint8_t t[256], const uint8_t key[16], uint8_t out[16]);
void rattle_node(const uint8_t t[256], const uint8_t key[16], const uint8_t iv[16], uint8_t out[32]);
void rattle_row(const uint8_t t[256], const uint8_t key[16], const uint8_t iv[16], uint8_t out[224]);
void rattle_keccak(uint64_t a[25]);
void rattle_h0(const uint8_t *iv, size_t iv_length, uint8_t *out, size_t out_length);
void rattle_h1(const uint8_t *message, size_t message_length, uint8_t *out, size_t out_length);
void rattle_multiples(const uint8_t key[48], uint64_t m[16][12]);
void rattle_leaf_hash(const uint64_t m[16][12], const uint8_t stretched[64], uint8_t out[48]);
size_t rattle_plan(size_t tau, size_t k, size_t w, size_t t, const uint8_t *challenge, size_t challenge_length, uint32_t *nodes, size_t nodes_length);
void rattle_grow(const uint8_t t[256], const uint8_t *root, size_t root_length, const uint8_t iv[16], size_t tau, size_t k, size_t w, size_t allowed, uint8_t *tree, size_t tree_length);
void rattle_add_row(const uint8_t t[256], const uint8_t *seed, size_t seed_length, const uint8_t iv[16], uint32_t tweak, uint8_t *sum, size_t sum_length);
