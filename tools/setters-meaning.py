#!/usr/bin/env python3
"""Writes crates/meaning/specs/Setters.antt: the state with one column changed, and with one place of a column changed;
   and, asked for flags, crates/meaning/specs/Flags.antt: the flags that occur, and flags with one bit changed.
   tools/setters-meaning.py > crates/meaning/specs/Setters.antt
   tools/setters-meaning.py flags > crates/meaning/specs/Flags.antt"""
import sys
record = lambda pairs: 'record { %s }' % '; '.join('%s = %s' % p for p in pairs)

BITS = ['mutable', 'watching', 'recursed_check', 'recursed', 'dirty', 'pending']  # from 1 up
BYTES = [0, 1, 2, 5, 6, 17, 32, 33, 48, 49]
CHANGED = ['watching', 'dirty', 'pending']
if sys.argv[1:] == ['flags']:
    print("""-- Document 01, "Flags and tables at rest": the flags that occur, by their byte, and flags with one bit changed. Written by tools/setters-meaning.py.
use Rattle.std.specs.Prelude.{Bool, true, false}
use Rattle.flags.specs.declared.Named.{Named}""")
    for b in BYTES:
        print('\nabbrev pub f%d : Named\nf%d = %s' % (b, b, record((f, 'true' if b >> i & 1 else 'false') for i, f in enumerate(BITS))))
    for f in CHANGED:
        print('\nabbrev pub with_%s : Named → Bool → Named\nwith_%s f b = %s' % (f, f, record((g, 'b' if g == f else 'f.' + g) for g in BITS)))
    sys.exit()

FIELDS = [('room', 'Room', 0), ('size', 'ℕ', 0), ('used', 'ℕ', 0), ('kind', 'Kind', 1), ('form', 'Tree', 1), ('owner', 'Option ℕ', 1), ('gone', 'Bool', 1), ('level', 'ℕ', 1),
          ('fl', 'Named', 1), ('sto', 'Value', 1), ('pend', 'Value', 1), ('done', 'List ℕ', 1), ('rest', 'List ℕ', 1), ('subs', 'List ℕ', 1), ('live', 'Bool', 1),
          ('dep', 'ℕ', 1), ('sub', 'ℕ', 1), ('ver', 'ℕ', 1), ('free', 'List ℕ', 0), ('queue', 'List ℕ', 0), ('depth', 'ℕ', 0), ('cycle', 'ℕ', 0), ('log', 'List Row', 0), ('stuck', 'Bool', 0)]
KEPT = {'room'}  # never changed
print("""-- The state with one column changed, and with one place of a column changed. Written by tools/setters-meaning.py.
use Rattle.std.specs.Prelude.{Bool, List, ℕ}
use Rattle.std.proofs.Math.Option.{Option}
use Rattle.flags.specs.declared.Named.{Named}
use Rattle.values.specs.declared.Value.{Value}
use Rattle.trees.specs.Trees.{Tree}
use Rattle.meaning.specs.State.{St, Kind, Row, up}
""")
made = []
for f, t, column in FIELDS:
    if f in KEPT: continue
    typ = '(ℕ → %s)' % t if column else t
    made.append('abbrev pub with_%s : St → %s → St\nwith_%s s x = %s' % (f, typ, f, record((g, 'x' if g == f else 's.' + g) for g, _, _ in FIELDS)))
for f, t, column in FIELDS:
    if column: made.append('abbrev pub set_%s : St → ℕ → %s → St\nset_%s s n v = with_%s s (up s.%s n v)' % (f, t, f, f, f))
print('\n\n'.join(made))
