/*
 * A stream of files on standard input, for answers.c and stack.c: for each file the number of its kind of object names, in
 * one byte, its number of bytes, in four bytes with the lowest first, and then the bytes.
 */
#ifndef STREAM_H
#define STREAM_H

#include <stdint.h>
#include <stdio.h>
#include <stdlib.h>

static uint8_t *file;
static size_t file_length;
static uint32_t file_kind;

/* Reads the next file. 0 says that there is none; a file that is cut ends the program with status 1. */
static int next_file(void)
{
    uint8_t head[5];

    if (fread(head, 1, sizeof head, stdin) != sizeof head)
        return 0;
    file_kind = head[0];
    file_length = head[1] | (size_t)head[2] << 8 | (size_t)head[3] << 16 | (size_t)head[4] << 24;
    free(file);
    file = (uint8_t *)malloc(file_length + 1);
    if (file == NULL || fread(file, 1, file_length, stdin) != file_length) {
        fputs("a file of the stream is cut\n", stderr);
        exit(1);
    }
    return 1;
}

#endif
