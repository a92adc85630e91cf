// A commit from C++ with one vector, whose corrections have no bytes: a std::vector of no bytes may have a null pointer, and is lent as it is.
#include <rachnoel.h>

#include <cstdio>
#include <vector>

static rachnoel_bytes lent(std::vector<uint8_t> &bytes, size_t length)
{
    bytes.resize(length);
    return rachnoel_bytes_of(bytes.data(), bytes.size());
}

int main()
{
    const rachnoel_shape shape = {1, 1, 127, 1, 128, 0};
    const uint8_t zeros[16] = {0};
    std::vector<uint8_t> commitment, tree, leaf_commitments, u, v, corrections;
    rachnoel_commit_buffers b = rachnoel_commit_sized(shape, 8);
    b.root.at = b.iv.at = zeros;
    b.commitment = lent(commitment, b.commitment.length);
    b.tree = lent(tree, b.tree.length);
    b.leaf_commitments = lent(leaf_commitments, b.leaf_commitments.length);
    b.u = lent(u, b.u.length);
    b.v = lent(v, b.v.length);
    b.corrections = lent(corrections, b.corrections.length);
    const size_t number = rachnoel_commit_in(&b);
    std::printf("commit from C++ with a vector of %zu bytes at %s: %s\n", corrections.size(), corrections.data() == nullptr ? "NULL" : "an address", rachnoel_refusal_text(number));
    return number == 0 ? 0 : 1;
}
