/* The calls with a tray as the linker's --wrap names them: a wrong tray is what
   __wrap_.. does, and the library's own call is __real_... */
#ifndef WRAPPED_TRAYS_H
#define WRAPPED_TRAYS_H

#include "library.h"

uint32_t __real_vi_tray_put(uint32_t *tray, size_t tray_count, uint32_t number, uint32_t u, uint32_t y,
    uint8_t *record, size_t length);
uint32_t __wrap_vi_tray_put(uint32_t *tray, size_t tray_count, uint32_t number, uint32_t u, uint32_t y,
    uint8_t *record, size_t length);
uint32_t __real_vi_tray_take(uint32_t *tray, size_t tray_count, uint32_t number, uint32_t *pair, size_t pair_count,
    uint8_t *record, size_t length);
uint32_t __wrap_vi_tray_take(uint32_t *tray, size_t tray_count, uint32_t number, uint32_t *pair, size_t pair_count,
    uint8_t *record, size_t length);
uint32_t __real_vi_tray_summary(const uint32_t *tray, size_t tray_count, int64_t *row, size_t row_count);
uint32_t __wrap_vi_tray_summary(const uint32_t *tray, size_t tray_count, int64_t *row, size_t row_count);

#endif
