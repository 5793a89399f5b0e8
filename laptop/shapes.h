/* The shapes that the picture is made of. A class names the style. */
#ifndef SHAPES_H
#define SHAPES_H

#include <stdio.h>

void draw_box(FILE *file, const char *class, double x, double y, double width, double height);
void draw_line(FILE *file, const char *class, double x1, double y1, double x2, double y2);
void draw_circle(FILE *file, const char *class, double x, double y, double radius);
void draw_words(FILE *file, const char *class, double x, double y, const char *words);

/* Words that are read upwards. */
void draw_upright(FILE *file, const char *class, double x, double y, const char *words);

/* For words that are printed in parts, in between. They are plain: nothing in them is escaped. */
void open_text(FILE *file, const char *class, double x, double y);
void close_text(FILE *file);

#endif
