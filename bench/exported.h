/* A sheet made of each shape that has columns to export, beside plain C and beside judging. */
#ifndef EXPORTED_H
#define EXPORTED_H

void exported(int turns);
#endif
