/* The saved index: making it beside judging, and a lookup through it in books of three sizes. */
#ifndef INDEXED_H
#define INDEXED_H

void indexed(int turns);
#endif
