/*
 * windrow_version.h: which release these headers and libraries are. windrow_reader.h and windrow_gateway.h include it.
 *
 * The headers are C99 and C++11. The libraries are made for x86-64 and the System V calling convention (Linux, the BSDs), by the
 * kit that proves them.
 */
#ifndef WINDROW_VERSION_H
#define WINDROW_VERSION_H

/*
 * A new major number: programs may have to be changed. A new minor number: there is more to use, or a call answers some input
 * otherwise than before, as CHANGELOG.md says. A new patch: only the inside differs. With each, compile and link again.
 *
 * 2: windrow_poll and windrow_gateway_poll take the live table too, so that firmware for 1 has to be changed where it polls. A
 * compiler stops one that was not; the linker does not, so link no object that was compiled with headers of 1: most of its polls
 * would be refused with 3 (Table).
 *
 * 3: windrow_fresh and windrow_gateway_fresh take the gateway's firmware too, behind the unit, and windrow_state_from_bytes the
 * stored state's format, so that programs for 2 have to be changed where they make a gateway and where they take a state back. A
 * compiler stops one that was not; the linker does not, so link no object that was compiled with headers of 2: its fresh would be
 * refused with 2 (Foreign), as the archive's address would be taken for the firmware, and so would every call with a state that it
 * has stored, which names none.
 */
#define WINDROW_VERSION_MAJOR 3
#define WINDROW_VERSION_MINOR 0
#define WINDROW_VERSION_PATCH 0
#define WINDROW_VERSION "3.0.0"

/*
 * The format of struct windrow_state as bytes, and that of releases 1 and 2. Store it beside a state, and hand it to
 * windrow_state_from_bytes with it, which takes both. A program that makes a fresh gateway wherever it finds another format than
 * WINDROW_STATE_FORMAT, or wherever a stored state is refused with 2 (Foreign), loses its archive by the upgrade from 2.
 */
#define WINDROW_STATE_FORMAT 2
#define WINDROW_STATE_FORMAT_1 1

#endif
