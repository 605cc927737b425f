/*
 * The C face at its edges: no buffer at all, an output that is a byte too small, one that is just right, a wrong table, each
 * option. Prints what differs from what the header says, and its status is then 1.
 */
#include <saltighedda.h>

#include <stdio.h>
#include <string.h>

static int failures;

static void hold(int fact, const char *what)
{
    if (!fact) {
        printf("face: %s\n", what);
        failures++;
    }
}

static uint8_t remarks[SALTIGHEDDA_REMARKS];
static uint8_t out[SALTIGHEDDA_LONGEST];

/* What the four entries answer for a line, with so many bytes of output. */
struct answer {
    size_t written, number, place, length;
};

static struct answer ask(const uint8_t *line, size_t n, uint32_t options, size_t table, size_t room)
{
    struct answer a;
    memset(out, '#', sizeof out);
    a.number = saltighedda_list_refusal(line, n, 7, options, remarks, table, out, room);
    a.place = saltighedda_list_place(line, n, 7, options, remarks, table, out, room);
    a.length = saltighedda_list_length(line, n, 7, options, remarks, table, out, room);
    for (size_t i = 0; i < sizeof out; i++)
        if (out[i] != '#') {
            hold(0, "a call about a refusal wrote into the output");
            break;
        }
    a.written = saltighedda_list(line, n, 7, options, remarks, table, out, room);
    for (size_t i = a.written; i < sizeof out; i++)
        if (out[i] != '#') {
            hold(0, "a byte behind the listing was written");
            break;
        }
    hold((a.written == 0) == (a.number != 0), "a line is listed and refused, or neither");
    return a;
}

static struct answer ask_text(const char *text, uint32_t options)
{
    return ask((const uint8_t *)text, strlen(text), options, sizeof remarks, sizeof out);
}

static int shows(const char *text, uint32_t options, const char *row)
{
    struct answer a = ask_text(text, options);
    out[a.written < sizeof out ? a.written : sizeof out - 1] = 0;
    return strstr((const char *)out, row) != NULL;
}

static int is(struct answer a, size_t number, size_t place, size_t length)
{
    return a.written == 0 && a.number == number && a.place == place && a.length == length;
}

static int lists(struct answer a, const char *listing)
{
    return a.number == 0 && a.place == 0 && a.length == 0 && a.written == strlen(listing) && memcmp(out, listing, a.written) == 0;
}

int main(void)
{
    static const char empty[] = "record=EMPTY\nline=7\nfaults=0\n";
    static const char model[] = "record=MODEL\nline=7\nf6=2\nfaults=0\n";
    static const char line[] = "MODEL        2";
    const uint8_t *bytes = (const uint8_t *)line;
    char remark[91];
    memset(remarks, 1, sizeof remarks);
    memset(remark, 'x', 90);
    memcpy(remark, "REMARK   2 ", 11);
    remark[90] = '\0';

    hold(lists(ask(NULL, 0, 0, sizeof remarks, sizeof out), empty), "no line at all is EMPTY");
    hold(lists(ask_text(line, 0), model), "MODEL is listed");
    hold(lists(ask(bytes, strlen(line), 0, sizeof remarks, strlen(model)), model), "an output that is just large enough");
    hold(is(ask(bytes, strlen(line), 0, sizeof remarks, strlen(model) - 1), 8, 0, strlen(model)), "an output that is a byte too small");
    hold(is(ask(bytes, strlen(line), 0, sizeof remarks, 0), 8, 0, strlen(model)), "no room at all");
    hold(saltighedda_list(bytes, strlen(line), 7, 0, remarks, sizeof remarks, NULL, 0) == 0, "no output at all");
    hold(is(ask(bytes, strlen(line), 0, sizeof remarks - 1, sizeof out), 1, 0, 0), "a table that is too small");
    hold(saltighedda_list_refusal(bytes, strlen(line), 7, 0, NULL, 0, out, sizeof out) == 1, "no table at all");
    hold(is(ask_text("ATOM \200", 0), 3, 5, 1), "a byte of 128");
    hold(is(ask_text("HEADER    A", 0), 4, 11, 0), "a short HEADER");
    hold(lists(ask_text("HEADER    A", SALTIGHEDDA_ATOMS_ONLY), empty), "atoms only makes HEADER empty");
    hold(is(ask_text(remark, 0), 5, 80, 10), "a long REMARK");
    hold(is(ask_text(remark, ~SALTIGHEDDA_LOOSE & ~SALTIGHEDDA_ATOMS_ONLY), 5, 80, 10), "the other bits have no effect");
    hold(shows("SCALE1           1e5", 0, "\nf10=0000000000000000\n"), "an exponent isn't read without its bit");
    hold(shows("SCALE1           1e5", ~SALTIGHEDDA_EXPONENTS & ~SALTIGHEDDA_ATOMS_ONLY, "\nf10=0000000000000000\n"),
         "the other bits don't take exponents");
    hold(shows("SCALE1           1e5", SALTIGHEDDA_EXPONENTS, "\nf10=40F86A0000000000\n"), "bit 3 takes exponents");
    hold(ask_text(remark, SALTIGHEDDA_LOOSE).number == 0, "loose lets a long REMARK pass");
    return failures != 0;
}
