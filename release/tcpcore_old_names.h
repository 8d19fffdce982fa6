/*
 * tcpcore_old_names.h: the names of version 8 for calls, types and constants that have others since version 9, as macros, so that a
 * program in the old names is compiled as it is. tcpcore.h includes it; with TCPCORE_NO_OLD_NAMES defined it doesn't. A later version
 * may leave it out. The fields of structs have new names alone: a macro of so short a word would change the program's own names.
 */
#ifndef TCPCORE_OLD_NAMES_H
#define TCPCORE_OLD_NAMES_H

/* Arrivals. What was tcpcore_taken is a struct, and, in front of a parenthesis, a call. */
#define tcpcore_take tcpcore_arrive_with_at_once
#define tcpcore_taken tcpcore_arrive_report
#define tcpcore_arrive_report(end, src, dst, bytes, length, report) tcpcore_arrive_with_report(end, src, dst, bytes, length, report)
#define tcpcore_taken_vouched tcpcore_arrive_vouched_with_report

/* The record in the place of an end in TIME-WAIT. */
#define tcpcore_rest tcpcore_time_wait
#define tcpcore_rest_arrive tcpcore_time_wait_arrive
#define tcpcore_rest_timer tcpcore_time_wait_timer
#define tcpcore_rest_emit tcpcore_time_wait_emit
#define tcpcore_rest_pending tcpcore_time_wait_pending
#define tcpcore_rest_abort tcpcore_time_wait_abort
#define tcpcore_rest_status tcpcore_time_wait_status
#define TCPCORE_REST_ROOM TCPCORE_TIME_WAIT_ROOM
#define TCPCORE_NO_REST TCPCORE_NO_TIME_WAIT
#define TCPCORE_NOT_AT_REST TCPCORE_NOT_TIME_WAIT

#endif
