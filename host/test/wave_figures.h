/*
 * The figures of WAVE files that are brought in, a part of the figures.
 */
#ifndef WAVE_FIGURES_H
#define WAVE_FIGURES_H

void wave_figures(void);

#endif
