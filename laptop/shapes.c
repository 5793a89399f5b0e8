#include "shapes.h"

void draw_box(FILE *file, const char *class, double x, double y, double width, double height)
{
    fprintf(file, "<rect class='%s' x='%.1f' y='%.1f' width='%.1f' height='%.1f'/>\n", class, x, y,
            width, height);
}

void draw_line(FILE *file, const char *class, double x1, double y1, double x2, double y2)
{
    fprintf(file, "<line class='%s' x1='%.1f' y1='%.1f' x2='%.1f' y2='%.1f'/>\n", class, x1, y1, x2,
            y2);
}

void draw_circle(FILE *file, const char *class, double x, double y, double radius)
{
    fprintf(file, "<circle class='%s' cx='%.1f' cy='%.1f' r='%.1f'/>\n", class, x, y, radius);
}

void open_text(FILE *file, const char *class, double x, double y)
{
    fprintf(file, "<text class='%s' x='%.1f' y='%.1f'>", class, x, y);
}

void close_text(FILE *file)
{
    fputs("</text>\n", file);
}

void draw_words(FILE *file, const char *class, double x, double y, const char *words)
{
    open_text(file, class, x, y);
    fputs(words, file);
    close_text(file);
}

void draw_upright(FILE *file, const char *class, double x, double y, const char *words)
{
    fprintf(file, "<text class='%s' x='%.1f' y='%.1f' transform='rotate(-90 %.1f %.1f)'>", class, x,
            y, x, y);
    fputs(words, file);
    close_text(file);
}
