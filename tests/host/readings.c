/* Signed readings of document 01, and from other low ends as document 02's #106 has them, through the header alone. One line per example
 * group; ends with 0 only if all of them hold. */
#include "dauneroad.h"
#include "expect.h"

static void readings(void)
{
    static const struct {
        uint32_t p, residue;
        int32_t record;
    } table[] = {{2, 0, 0}, {2, 1, 1}, {3, 1, 1}, {3, 2, -1}, {7, 3, 3}, {7, 4, -3}, {7, 6, -1}, {2147483647, 0, 0},
                 {2147483647, 1073741823, 1073741823}, {2147483647, 1073741824, -1073741823}, {2147483647, 2147483646, -1}};
    static const struct {
        uint32_t p;
        int32_t record;
    } outside[] = {{2, -1}, {2, 2}, {7, 4}, {7, -4}, {2147483647, 1073741824}, {2147483647, -1073741824},
                   {2147483647, INT32_MIN}, {2147483647, INT32_MAX}, {2, INT32_MIN}};
    for (size_t i = 0; i < LEN(table); i++) {
        int32_t record = 55;
        uint32_t residue = 55;
        const uint32_t p = table[i].p, low = DAUNEROAD_LOW(p);
        EXPECT(dauneroad_signed(p, low, table[i].residue, &record) == 0);
        EXPECT(record == table[i].record);
        EXPECT(dauneroad_residue(p, low, table[i].record, &residue) == 0);
        EXPECT(residue == table[i].residue);
        EXPECT(dauneroad_signed(p, low, p, &record) == DAUNEROAD_NUMBER);
        EXPECT(dauneroad_signed(p, p, table[i].residue, &record) == DAUNEROAD_NUMBER);
        EXPECT(record == table[i].record);
    }
    for (size_t i = 0; i < LEN(outside); i++) {
        uint32_t residue = 55;
        EXPECT(dauneroad_residue(outside[i].p, DAUNEROAD_LOW(outside[i].p), outside[i].record, &residue) == DAUNEROAD_NUMBER);
        EXPECT(residue == 55);
    }
    group("signed readings, both ends of the range");
}

static void low_ends(void)
{
    static const struct {
        uint32_t p, low, residue;
        int32_t record;
    } table[] = {{2, 0, 1, 1}, {2, 1, 1, -1}, {2, 1, 0, 0}, {7, 0, 6, 6}, {7, 1, 5, 5}, {7, 1, 6, -1}, {7, 5, 1, 1}, {7, 5, 2, -5},
                 {7, 6, 0, 0}, {7, 6, 1, -6}, {2147483647, 0, 2147483646, 2147483646}, {2147483647, 2147483646, 1, -2147483646},
                 {2147483647, 2147483645, 1, 1}, {2147483647, 2147483645, 2, -2147483645}, {2147483647, 1, 2147483645, 2147483645}};
    static const struct {
        uint32_t p, low;
        int32_t record;
    } outside[] = {{2, 0, -1}, {2, 1, 1}, {7, 0, 7}, {7, 0, -1}, {7, 6, 1}, {7, 6, -7}, {7, 7, -1}, {7, 4294967295, -1},
                   {2147483647, 0, -1}, {2147483647, 0, 2147483647}, {2147483647, 2147483646, 1},
                   {2147483647, 2147483646, -2147483647}, {2147483647, 2147483646, INT32_MIN}, {2147483647, 2147483647, -1}};
    for (size_t i = 0; i < LEN(table); i++) {
        int32_t record = 55;
        uint32_t residue = 55;
        EXPECT(dauneroad_signed(table[i].p, table[i].low, table[i].residue, &record) == 0);
        EXPECT(record == table[i].record);
        EXPECT(dauneroad_residue(table[i].p, table[i].low, table[i].record, &residue) == 0);
        EXPECT(residue == table[i].residue);
    }
    for (size_t i = 0; i < LEN(outside); i++) {
        uint32_t residue = 55;
        EXPECT(dauneroad_residue(outside[i].p, outside[i].low, outside[i].record, &residue) == DAUNEROAD_NUMBER);
        EXPECT(residue == 55);
    }
    group("signed readings from 0, 1, p - 2 and p - 1");
}

int main(void)
{
    readings();
    low_ends();
    printf("readings: done\n");
    return failures != 0;
}
