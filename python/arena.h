/* The arena of the extension module, for callers that are never two at a time. Whoever opens it
   closes it again, and by then has given back all blocks. */
#ifndef ARENA_H
#define ARENA_H

void open_arena(void);
void close_arena(void);

#endif
