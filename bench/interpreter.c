/* A switch interpreter of the machine's code, written by hand: what the proved machine is timed against.
   RUN is the function's name, since it is compiled more than once. */
#include <stdbool.h>
#include <stddef.h>
#include <stdint.h>

typedef struct { uint64_t items[32]; size_t height; } Values;
typedef struct { uint64_t items[8]; size_t height; } Control;
typedef struct { size_t pc; Values values; Control control; size_t base; uint64_t fault; } Vm;

static uint64_t pop(Values *s) { return s->height ? s->items[--s->height] : 0; }
static void push(Values *s, uint64_t x) { s->items[s->height++] = x; }
static uint64_t pop_round(Control *s) { return s->height ? s->items[--s->height] : 0; }
static void push_round(Control *s, uint64_t x) { s->items[s->height++] = x; }

static uint64_t apply(uint16_t op, uint64_t x, uint64_t y) {
  switch (op) {
    case 0: return (x + y) % 65536;
    case 1: return (x + (y > 65536 ? 0 : 65536 - y)) % 65536;
    case 2: return x * y % 65536;
    case 3: return y ? x / y : 0;
    case 4: return x < y;
    case 5: return x == y;
    case 6: return x && y;
    default: return x || y;
  }
}

/* one instruction; false where it is not allowed */
static bool step(Vm *m, uint16_t kind, uint16_t a, uint16_t b, uint16_t c, uint64_t elapsed, uint64_t *vars, size_t size) {
  switch (kind) {
    case 0:
      if (m->values.height >= 32) return false;
      push(&m->values, a);
      m->pc++;
      return true;
    case 1:
      if (m->base + a >= size || m->values.height >= 32) return false;
      push(&m->values, vars[m->base + a]);
      m->pc++;
      return true;
    case 2:
      if (m->base + a >= size) return false;
      vars[m->base + a] = pop(&m->values);
      m->pc++;
      return true;
    case 3: {
      uint64_t x = pop(&m->values);
      push(&m->values, x == 0);
      m->pc++;
      return true;
    }
    case 4: {
      uint64_t y = pop(&m->values), x = pop(&m->values);
      push(&m->values, apply(a, x, y));
      if (a == 3 && y == 0 && m->fault == 0) m->fault = 1;
      m->pc++;
      return true;
    }
    case 5:
      m->pc += 1 + a;
      return true;
    case 6:
      m->pc++;
      if (pop(&m->values) == 0) m->pc += a;
      return true;
    case 7:
      if (a == 0) {
        m->pc += 1 + b;
        return true;
      }
      if (m->control.height >= 8) return false;
      push_round(&m->control, a);
      m->pc++;
      return true;
    case 8: {
      m->pc++;
      uint64_t left = pop_round(&m->control);
      if (left > 1) {
        push_round(&m->control, left - 1);
        m->pc = m->pc > a ? m->pc - a : 0;
      }
      return true;
    }
    case 9: {
      size_t out = m->base + a, counter = m->base + b;
      if (out >= size || counter >= size) return false;
      bool on = pop(&m->values) != 0;
      uint64_t n = 0;
      if (on) {
        n = vars[counter] + elapsed;
        if (n < elapsed) n = UINT64_MAX;
        if (n > c) n = c;
      }
      vars[counter] = n;
      vars[out] = on && c <= n;
      m->pc++;
      return true;
    }
    default:
      return false;
  }
}

uint8_t RUN(const uint16_t *code, size_t len, uint64_t elapsed, uint64_t *vars, size_t size, uint64_t *fault) {
  Vm m = {0};
  m.fault = *fault;
  size_t count = len / 4;
  for (uint32_t left = 20000; left > 0 && m.pc < count; left--) {
    const uint16_t *i = code + m.pc * 4;
    if (!step(&m, i[0], i[1], i[2], i[3], elapsed, vars, size)) break;
  }
  *fault = m.fault;
  return m.pc == count;
}
