/* What is printed, and what stops the run. */
#ifndef REPORT_H
#define REPORT_H

/* Ends the run with status 1, unless it holds. */
void require(int holds, const char *what);

/* Notes a measured ratio against a limit; the worst one counts where a target is noted again. */
void target_at_least(const char *text, double measured, double limit);
void target_at_most(const char *text, double measured, double limit);
void print_targets(void);

/* The sections, in their order. */
void long_days(void);
void peers(void);
void short_days(void);
void reading(void);
void searching(void);
void growth(void);

#endif
