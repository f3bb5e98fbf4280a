/* A book from the sheet of each shape that has columns to export, beside plain C and beside judging. */
#ifndef IMPORTED_H
#define IMPORTED_H

void imported(int turns);
#endif
