/* Divides 1 by 4, by 3 downward and upward, and by zero, which is refused. From the repository's root:
 *
 *     mkdir -p target && (cd crates/export && rt lib)
 *     gcc -std=c99 -Wall -Wextra -Werror -o target/example c/example.c crates/export/out/libexport.a
 */
#include <inttypes.h>
#include <stdio.h>

#include "navehuro.h"

typedef uint8_t number[NAVEHURO_NUMBER_BYTES];

static void put_integer(number x, uint64_t value) {
    int32_t exponent = 63;
    for (int i = 0; i < NAVEHURO_NUMBER_BYTES; i++) x[i] = 0;
    if (value == 0) return;
    for (; value >> 63 == 0; value <<= 1) exponent--;
    for (int i = 0; i < 8; i++) x[i] = (uint8_t)(value >> 8 * i);
    for (int i = 0; i < 4; i++) x[8 + i] = (uint8_t)((uint32_t)exponent >> 8 * i);
    x[12] = NAVEHURO_POSITIVE;
}

static const char *place_of(int8_t accuracy) {
    if (accuracy == NAVEHURO_RESULT_EXACT) return "exact";
    return accuracy == NAVEHURO_RESULT_BELOW ? "below" : "above";
}

static void print(const char *name, const number x, int8_t accuracy) {
    uint64_t significand = 0;
    uint32_t exponent = 0;
    for (int i = 7; i >= 0; i--) significand = significand << 8 | x[i];
    for (int i = 11; i >= 8; i--) exponent = exponent << 8 | x[i];
    printf("%s: significand %016" PRIx64 ", exponent %" PRId32 ", %s\n", name, significand,
           (int32_t)exponent, place_of(accuracy));
}

static uint32_t divide(const number a, const number b, uint32_t mode, number result,
                       int8_t *accuracy) {
    return navehuro_divide(a, sizeof(number), b, sizeof(number), mode, 64, result, sizeof(number),
                           accuracy);
}

int main(void) {
    number one, three, four, zero, quotient = {0};
    int8_t accuracy = 0;
    put_integer(one, 1);
    put_integer(three, 3);
    put_integer(four, 4);
    put_integer(zero, 0);
    if (divide(one, four, NAVEHURO_DOWN, quotient, &accuracy) == NAVEHURO_WRITTEN)
        print("1/4 down", quotient, accuracy);
    if (divide(one, three, NAVEHURO_DOWN, quotient, &accuracy) == NAVEHURO_WRITTEN)
        print("1/3 down", quotient, accuracy);
    if (divide(one, three, NAVEHURO_UP, quotient, &accuracy) == NAVEHURO_WRITTEN)
        print("1/3 up", quotient, accuracy);
    printf("1/0: refusal %" PRIu32 "\n", divide(one, zero, NAVEHURO_UP, quotient, &accuracy));
    print("as it was", quotient, accuracy);
}
