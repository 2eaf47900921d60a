/* The costing call: does a plan meet an equation? See docs/costing.md. */
#ifndef COSTING_H
#define COSTING_H

#include <stddef.h>
#include <stdint.h>

/* 1: the plan meets the equation; 0: it does not; otherwise a refusal, 3 to 7, 9 or 15.
 * The lines are given without their line feeds. Nothing is written or kept. */
int32_t costing_meets(const uint8_t *equation, size_t equation_len, const uint8_t *plan, size_t plan_len);

#endif
