/* Whether the library and the plain side answer alike, tried before anything is timed. */
#ifndef AGREE_H
#define AGREE_H

/* 0 where nothing differs; says what was tried */
int agree(void);

#endif
