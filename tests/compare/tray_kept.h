/* The summary that a tray keeps (change request #105): lists of calls in which many
   samples have the same index, and trays whose kept numbers somebody else wrote. */
#ifndef TRAY_KEPT_H
#define TRAY_KEPT_H

/* The lists that are named. */
void compare_kept(void);
/* One that is drawn: a long one from an empty tray, its samples of few oils. */
void few_oils_list(void);
/* One that is drawn: calls with a tray that keeps what no calls have led to. */
void foreign_list(void);

#endif
