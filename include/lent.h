/*
 * The 6522's two timers in a host program's own memory. The functions below are proved: crates/lent says what each leaves of
 * the pair, and crates/lent_c promises it of these. `rt lib` in crates/lent_c proves them and writes out/liblent_c.a there, for
 * x86-64 Linux (x86-64-v2), to link; tests/lent does so too, and puts it at target/staticlib/liblent.a.
 *
 * The caller answers for what a pointer is: it is not NULL, it is even, it points to a whole pair that may be written, and no
 * other thread reads or writes the pair during the call. And for each bool: it is 0 or 1, as C stores one. Any such pair may
 * be handed over.
 */
#ifndef SNOWFERRULE_LENT_H
#define SNOWFERRULE_LENT_H

#include <stdbool.h>
#include <stdint.h>

#ifdef __cplusplus
extern "C" {
#endif

/* mark: the counter takes the latch at the next clock. level: what T1 puts on PB7. flag: IFR6. free: ACR bit 6, free-run. */
struct t1 {
    uint16_t counter;
    uint16_t latch;
    bool armed;
    bool mark;
    bool level;
    bool flag;
    bool free;
};

/* low: the low latch. flag: IFR5. pulse: ACR bit 5, T2 counts pulses on PB6. No clock moves it then; the host counts. */
struct t2 {
    uint16_t counter;
    uint8_t low;
    bool armed;
    bool flag;
    bool pulse;
};

struct timers {
    struct t1 t1;
    struct t2 t2;
};

/*
 * Each gives 0, or 1 if it refuses the pair: `t1.mark` is true and `t1.counter` is not 65,535. A refused pair has the same
 * values afterwards.
 */

/* One clock. */
uint8_t clock_pair(struct timers *pair);

/* n clocks at once, as n calls of clock_pair would leave the pair, in a time that does not grow with n. */
uint8_t run_pair(struct timers *pair, uint32_t n);

#ifdef __cplusplus
}
#endif

#endif
