/* Records and entries as the C tests write them. */
#ifndef RECORDS_H
#define RECORDS_H
#include "ullimaqsu.h"

#define LINE(kind, output, a, b) kind, output, a, 0, b, 0, 0, 0
#define INPUT LINE(ULLIMAQSU_INPUT, 0, 0, 0)
#define EIGHT_INPUTS INPUT, INPUT, INPUT, INPUT, INPUT, INPUT, INPUT, INPUT
#define OUTPUT_OF(line) LINE(ULLIMAQSU_BUFFER, 1, line, 0)
#define NOT_OF(output, line) LINE(ULLIMAQSU_NOT, output, line, 0)
#define SELECTOR_OF(output, a, b, select) ULLIMAQSU_SELECTOR, output, a, 0, b, 0, select, 0

/* A circuit without output. */
static const uint8_t no_output[] = {INPUT, NOT_OF(0, 0)};

#define P ULLIMAQSU_PASS
#define F ULLIMAQSU_FAIL

#endif
