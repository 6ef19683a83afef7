/*
 * The stack of the thread that judges, copies and cleans, in octets. guard measures what a call takes: under 20 KiB for judge and copy, whatever the
 * message, under 15 for clean (a build, which the receiver does not make, under 19). To that the thread adds about 4,400 octets, glibc's record of it,
 * and the first call of memset about 2,000 more where names are bound late. 32 KiB hold all of that with room to spare.
 */
#ifndef STACK_H
#define STACK_H

#define STACK_OCTETS 32768u

#endif
