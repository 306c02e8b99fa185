/* The picture of a table, SVG: a panel for each kind of rate after the decoder against the rate of the line. */

#ifndef PLOT_H
#define PLOT_H

#include "table.h"

typedef enum { PANEL_BIT, PANEL_BLOCK, PANEL_FRAME, PANELS } panel;

/* Points are drawn with 95 % confidence bars; a point without an error as an open triangle with an arrow, at the upper limit. */
void plot(FILE *file, const table *t, const panel *panels, size_t panel_count);

#endif
