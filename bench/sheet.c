#include "sheet.h"

#include <stdlib.h>

size_t sheet_write(const Sheet *s, unsigned char *file)
{
    size_t n = 0;
    for (int v = 0; v < s->signals; v++) {
        const Signal *x = &s->signal[v];
        file[n++] = x->kind;
        file[n++] = x->a;
        if (x->kind != INPUT && x->kind != NOT)
            file[n++] = x->b;
    }
    for (int i = 0; i < s->outputs; i++) {
        file[n++] = OUTPUT;
        file[n++] = (unsigned char)i;
        file[n++] = s->output[i];
    }
    file[n++] = END;
    return n;
}

size_t sheet_read(const unsigned char *file, Sheet *s)
{
    size_t n = 0;
    s->inputs = s->registers = s->signals = s->outputs = 0;
    while (file[n] != END) {
        unsigned char kind = file[n];
        if (kind < INPUT || OUTPUT < kind)
            abort();
        if (kind == OUTPUT) {
            s->output[s->outputs++] = file[n + 2];
            n += 3;
            continue;
        }
        Signal *x = &s->signal[s->signals++];
        int narrow = kind == INPUT || kind == NOT;
        *x = (Signal){ kind, file[n + 1], narrow ? 0 : file[n + 2] };
        s->inputs += kind == INPUT;
        s->registers += kind == REGISTER;
        n += narrow ? 2 : 3;
    }
    return n + 1;
}

static unsigned char value_of(const Signal *x, const unsigned char *value)
{
    switch (x->kind) {
    case REGISTER: return x->a;
    case NOT: return !value[x->a];
    case AND: return value[x->a] & value[x->b];
    case OR: return value[x->a] | value[x->b];
    case XOR: return value[x->a] ^ value[x->b];
    default: return 0;
    }
}

void sheet_first_values(const Sheet *s, unsigned char *value)
{
    for (int v = 0; v < s->signals; v++)
        value[v] = value_of(&s->signal[v], value);
}
