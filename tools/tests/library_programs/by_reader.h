/* The calls of examples/c/bench.c by a reader's end. */
#include "soffitfennel.h"

int32_t by_reader_power_on(soffitfennel_card **card);
int32_t by_reader_power_off(soffitfennel_card **card);
int32_t by_reader_lose(soffitfennel_card **card, uint32_t number);
int32_t by_reader_garble(soffitfennel_card **card, uint32_t number);
int32_t by_reader_block(soffitfennel_card **card, const uint8_t *block, size_t count, uint8_t *reply, size_t room,
                        size_t *size);
int32_t by_reader_command(soffitfennel_card **card, const uint8_t *command, size_t count, uint8_t *answer, size_t room,
                          size_t *size);
