/* The system call by which an emulated program marks a place for the plugin of count.c. */
#ifndef MARK_H
#define MARK_H

#include <stdint.h>

enum { MARK = 123456 };

#endif
