/*
 * picture FULL.wav CUT.wav: the two sounds of examples/held_note.c as an SVG
 * picture on standard output: the pitch of each over time, in cents from the
 * note as tuned. Fails, and draws nothing, where a file cannot be read, is no
 * such WAVE file, or does not hold a note that the picture has room for.
 *
 * Every point of a line is measured, and so is the number beside it. Points
 * are rounded to a tenth of a pixel, so that every machine draws the same.
 */
#include <math.h>
#include <stdint.h>
#include <stdio.h>
#include <stdlib.h>
#include <string.h>

/* The note, as held_note.c plays it. */
#define RATE    31250
#define SECONDS 4
#define FRAMES  (SECONDS * RATE)
#define FC      1469    /* in steps of 1/2048 sample a frame */
#define LOOP    50.9375 /* samples */
#define TUNED   (RATE * (FC / 2048.0) / LOOP)

/* A crossing is known to a part of a frame. The more waves there are between
   the first and the last, the less that part moves the pitch. */
#define WINDOWS_A_SECOND 10
#define WINDOWS          (SECONDS * WINDOWS_A_SECOND)
#define WINDOW           (FRAMES / WINDOWS)
#define LEAST_WAVES      40

/* The picture, in pixels. A window's middle falls on a tenth of one. */
#define WIDTH        720
#define HEIGHT       300
#define LEFT         68
#define RIGHT        (LEFT + SECONDS * SECOND_WIDE)
#define TOP          70
#define BOTTOM       (TOP + (HIGHEST - LOWEST) * CENT_HIGH)
#define SECOND_WIDE  110
#define CENT_HIGH    4
#define LOWEST       (-4) /* so that the line at 0 stands clear of the edge */
#define HIGHEST      40
#define CENTS_APART  10

#define TITLE "A held note on a loop of about fifty samples"

struct line {
    const char *name;
    const char *colour; /* two that the colour blind tell apart as well */
    double cents[WINDOWS];
};

static struct line full = { .name = "END whole", .colour = "#0072B2" };
static struct line cut = { .name = "END cut to whole samples",
                           .colour = "#D55E00" };

/* ==== the sounds ========================================================== */

#define HEADER 44
#define BYTES(n)                                                             \
    (n) & 0xFF, (n) >> 8 & 0xFF, (n) >> 16 & 0xFF, (n) >> 24 & 0xFF

static const unsigned char header[HEADER] = {
    'R', 'I', 'F', 'F', BYTES(HEADER - 8 + 2 * FRAMES),
    'W', 'A', 'V', 'E', 'f', 'm', 't', ' ', BYTES(16),
    1, 0, /* plain samples */
    1, 0, /* one channel */
    BYTES(RATE), BYTES(2 * RATE), 2, 0, 16, 0,
    'd', 'a', 't', 'a', BYTES(2 * FRAMES)
};

/* One byte more shows what is too long. */
static unsigned char sound[HEADER + 2 * FRAMES + 1];

static void load(const char *name)
{
    FILE *file = fopen(name, "rb");
    size_t bytes;

    if (file == NULL) {
        perror(name);
        exit(1);
    }
    bytes = fread(sound, 1, sizeof sound, file);
    if (ferror(file)) {
        perror(name);
        exit(1);
    }
    (void)fclose(file);
    if (bytes != sizeof sound - 1 || memcmp(sound, header, HEADER) != 0) {
        fprintf(stderr, "%s: no WAVE file of one channel, 16 bits, %d samples "
                        "a second and %d seconds, with a header of %d bytes\n",
                name, RATE, SECONDS, HEADER);
        exit(1);
    }
}

static int32_t sample(size_t frame)
{
    const unsigned char *place = sound + HEADER + 2 * frame;
    int32_t word = place[0] + 256 * place[1];

    return word < 32768 ? word : word - 65536;
}

/* Waves a second, from the first to the last upward crossing of 0 that the
   window holds; 0 where it holds too few to tell. */
static double pitch(size_t window)
{
    double first = 0.0;
    double last = 0.0;
    long waves = -1;

    for (size_t i = window * WINDOW + 1; i < (window + 1) * WINDOW; i++) {
        int32_t before = sample(i - 1);
        int32_t now = sample(i);

        if (before < 0 && now >= 0) {
            last = (double)i - now / (double)(now - before);
            waves += 1;
            first = waves == 0 ? last : first;
        }
    }
    return waves < LEAST_WAVES ? 0.0 : (double)waves * RATE / (last - first);
}

static void measure(struct line *line, const char *name)
{
    load(name);
    for (size_t i = 0; i < WINDOWS; i++) {
        /* Of a pitch of 0 this is less than any scale begins with. */
        line->cents[i] = 1200.0 * log2(pitch(i) / TUNED);
        if (line->cents[i] < LOWEST || line->cents[i] > HIGHEST) {
            fprintf(stderr, "%s: no note from %d to %+d cents at %.1f "
                            "seconds\n",
                    name, LOWEST, HIGHEST, (double)i / WINDOWS_A_SECOND);
            exit(1);
        }
    }
}

/* As it is shown, with one decimal: no minus before a nought. */
static double mean(const struct line *line)
{
    double sum = 0.0;

    for (size_t i = 0; i < WINDOWS; i++) {
        sum += line->cents[i];
    }
    return fabs(sum / WINDOWS) < 0.05 ? 0.0 : sum / WINDOWS;
}

/* ==== the picture ========================================================= */

static double height_of(double cents)
{
    return BOTTOM - (cents - LOWEST) * CENT_HIGH;
}

/* A page may be dark: the picture brings its own white. */
static void draw_page(void)
{
    printf("<svg xmlns=\"http://www.w3.org/2000/svg\" width=\"%d\" "
           "height=\"%d\" viewBox=\"0 0 %d %d\" role=\"img\" "
           "font-family=\"system-ui, -apple-system, 'Segoe UI', Roboto, "
           "Helvetica, Arial, sans-serif\" font-size=\"12\" "
           "fill=\"#57606a\">\n", WIDTH, HEIGHT, WIDTH, HEIGHT);
    printf("<title>" TITLE ": %s %+.1f cents, %s %+.1f cents</title>\n",
           full.name, mean(&full), cut.name, mean(&cut));
    printf("<rect x=\"0.5\" y=\"0.5\" width=\"%d\" height=\"%d\" rx=\"8\" "
           "fill=\"#ffffff\" stroke=\"#d0d7de\"/>\n", WIDTH - 1, HEIGHT - 1);
}

static void draw_titles(void)
{
    printf("<text x=\"%d\" y=\"30\" font-size=\"16\" font-weight=\"600\" "
           "fill=\"#1f2328\">" TITLE "</text>\n", LEFT);
    printf("<text x=\"%d\" y=\"50\">Pitch against the note as tuned, %.2f Hz, "
           "in windows of 1/%d second; 100 cents are a semitone</text>\n",
           LEFT, TUNED, WINDOWS_A_SECOND);
    printf("<text x=\"%d\" y=\"%d\" text-anchor=\"middle\">time in seconds"
           "</text>\n", (LEFT + RIGHT) / 2, BOTTOM + 38);
    printf("<text transform=\"translate(24 %d) rotate(-90)\" "
           "text-anchor=\"middle\">pitch in cents</text>\n",
           (TOP + BOTTOM) / 2);
}

static void draw_scale(void)
{
    for (int cents = 0; cents <= HIGHEST; cents += CENTS_APART) {
        double y = height_of(cents);

        printf("<path d=\"M%d %.1fH%d\" stroke=\"#e4e8ec\"/>", LEFT, y, RIGHT);
        printf("<text x=\"%d\" y=\"%.1f\" text-anchor=\"end\">%s%d</text>\n",
               LEFT - 8, y + 4.0, cents > 0 ? "+" : "", cents);
    }
}

static void draw_time(void)
{
    printf("<path d=\"M%d %dH%d\" stroke=\"#8c959f\"/>\n", LEFT, BOTTOM, RIGHT);
    for (int second = 0; second <= SECONDS; second++) {
        int x = LEFT + second * SECOND_WIDE;

        printf("<path d=\"M%d %dv5\" stroke=\"#8c959f\"/>", x, BOTTOM);
        printf("<text x=\"%d\" y=\"%d\" text-anchor=\"middle\">%d</text>\n", x,
               BOTTOM + 19, second);
    }
}

/* A window's pitch stands at its middle. */
static void draw_points(const struct line *line)
{
    printf("<polyline fill=\"none\" stroke=\"%s\" stroke-width=\"2.5\" "
           "stroke-linecap=\"round\" stroke-linejoin=\"round\" points=\"",
           line->colour);
    for (size_t i = 0; i < WINDOWS; i++) {
        double seconds = ((double)i + 0.5) / WINDOWS_A_SECOND;

        printf("%s%.1f,%.1f", i % 8 == 0 ? "\n" : " ",
               LEFT + seconds * SECOND_WIDE, height_of(line->cents[i]));
    }
    printf("\"/>\n");
}

static void draw_label(const struct line *line)
{
    double y = height_of(mean(line));

    printf("<text x=\"%d\" y=\"%.1f\" font-size=\"13\" font-weight=\"600\" "
           "fill=\"%s\">%s", RIGHT + 8, y - 3.0, line->colour, line->name);
    printf("<tspan x=\"%d\" dy=\"16\" font-weight=\"400\">%+.1f cents</tspan>"
           "</text>\n", RIGHT + 8, mean(line));
}

static void draw(void)
{
    draw_page();
    draw_titles();
    draw_scale();
    draw_time();
    draw_points(&full);
    draw_points(&cut);
    draw_label(&full);
    draw_label(&cut);
    printf("</svg>\n");
}

int main(int words, char **word)
{
    if (words != 3) {
        fprintf(stderr, "picture FULL.wav CUT.wav\n");
        return 2;
    }
    measure(&full, word[1]);
    measure(&cut, word[2]);
    draw();
    if (fflush(stdout) != 0 || ferror(stdout)) {
        perror("picture");
        return 1;
    }
    return 0;
}
