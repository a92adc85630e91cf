// A call from C++: the nodes that an opening reveals with two vectors of four entries and challenge 0c, which are 13, 8, 5 and 4.
#include <rachnoel.h>

#include <cstdio>

int main()
{
    const uint8_t challenge[16] = {0x0c};
    uint8_t nodes[4 * 4], count[RACHNOEL_COUNT];
    const size_t number = rachnoel_plan(2, 2, 124, 4, 128, 0, challenge, sizeof challenge, nodes, sizeof nodes, count, sizeof count);
    std::printf("plan from C++ answers %zu, %u nodes:", number, static_cast<unsigned>(rachnoel_number(count)));
    const unsigned expected[4] = {13, 8, 5, 4};
    bool same = number == 0 && rachnoel_number(count) == 4;
    for (int i = 0; i < 4; i++) {
        const unsigned node = static_cast<unsigned>(rachnoel_number(nodes + 4 * i));
        std::printf(" %u", node);
        same = same && node == expected[i];
    }
    std::printf("\n");
    return same ? 0 : 1;
}
