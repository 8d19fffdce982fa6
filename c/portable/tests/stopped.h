/* What a failed test of the portable file calls in stops.c. */
void stopped(void);
