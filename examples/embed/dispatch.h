/* Sessions, desk and book for a program that isn't written in Rattle: the core of `dispatch run`, without its threads,
   connections and clock, which this program has. docs/embedding.md has the events and the answers.

   One end of a socket is the core's, the other the caller's. An event is one packet. Its answer is one packet or more:

       int ends[2];
       socketpair(AF_UNIX, SOCK_SEQPACKET, 0, ends);
       .. on a thread of its own: dispatch_run(setup, strlen(setup), ends[1]); ..
       send(ends[0], "20240102-14:30:00.000 connect NYSE", 34, MSG_NOSIGNAL);
       recv(ends[0], packet, 65536, 0);   .. until the line `done` ..

   What the caller has to keep, for the call to be safe. Nothing checks it.

   - Memory: `setup` is the address of `length` bytes that may be read. They stay, and nobody writes to them, until the
     call returns. Nothing else of the caller's memory is read or written, and nothing is handed over that has to be
     freed.
   - The socket: `socket` is one end of a pair as above, in blocking mode, that no one else uses. The call owns it, and
     closes it before it returns, in each case. The caller doesn't close it.
   - Threads: the call waits for events on the thread that made it. The core starts no thread and shares nothing: calls
     on several threads are as many cores.
   - The allocator: `malloc`, `realloc` and `free` come from one, which aligns a block to each power of two up to 16 that
     divides its size, as that of glibc does. The call isn't made in a signal handler, or in the forked child of a
     process with threads.

   What the caller has to keep, for what the core says to be true of the venues. Nothing checks it either.

   - One event at a time: its answer is read up to `done` before the next event is sent.
   - Writing: the `write` frames of a venue go to its present connection whole, in the order of the answers, and to no
     other connection. If one can't be written, the connection is broken.
   - Receiving: `received` has the bytes of the venue's present connection, all of them, in order, in pieces of any size.
   - Connections: `connect` is sent once the connection is there, and `broken` once it is gone, whoever ended it. After
     `ended` the caller ends the connection; the session counts it as gone already.
   - Time: each event begins with the present time in UTC, which doesn't go back. Messages carry it (52, 60); nothing
     else is done by it. The core has no clock, so the caller sends `quiet` once nothing was written to a venue for its
     heartbeat interval (108), and `silent` once nothing was received for 1.2 intervals, and again after as much more.
   - The end: if the core ends by itself, the last event may have been done and not answered. The caller ends every
     connection. Legs in doubt stay so, and no other core can go on with these sessions: their numbers are in this one
     alone. */
#ifndef DISPATCH_H
#define DISPATCH_H

#include <stddef.h>
#include <stdint.h>

/* Runs the core of a day of these venues until the other end of the socket is closed, and returns 0 then. If it ends
   before, it returns why: 1, `setup` is none; 2, out of memory; 3, an event of more than 65,536 bytes; 4, the socket
   failed. */
uint32_t dispatch_run(const uint8_t *setup, size_t length, int32_t socket);

#endif
