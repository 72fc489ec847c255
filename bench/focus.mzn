% WeightedSpringyFOCUS as the papers decompose it (000 and 001, section 4), in their letters: sequence i goes from slot
% S[i] to slot E[i]; T[j] is the sequence that covers slot j, or 0; Z[j] is the same if slot j is at most k, and else 0;
% last is the number of sequences. Everything is numbered from 1. A sequence may begin or end with a slot that is not
% over, which alters neither whether there is a plan nor the least number of windows. The papers' rule is settle 0.
include "global_cardinality.mzn";

int: n;
int: k;
int: len;
int: h;
int: settle;
int: windows_most;
int: covered_most;
array[1..n] of int: lowest;
array[1..n] of int: highest;

set of int: slots = 1..n;
set of int: sequences = 1..windows_most;

array[slots] of var min(lowest)..max(highest): x;
array[sequences] of var 1..n + windows_most: S;
array[sequences] of var 1..n + windows_most: E;
array[slots] of var 0..windows_most: T;
array[slots] of var 0..windows_most: Z;
array[sequences] of var 0..h: card;
var 0..windows_most: last;
var 0..windows_most: y;
var 0..covered_most: z;

constraint forall(j in slots)(lowest[j] <= x[j] /\ x[j] <= highest[j]);
constraint forall(j in slots)(x[j] <= k \/ Z[j] = 0);
constraint forall(j in slots)(x[j] <= k \/ T[j] > 0);
constraint forall(j in slots)(x[j] > k \/ T[j] = Z[j]);
constraint forall(j in slots)(T[j] <= last);
constraint forall(i in sequences, j in slots)(T[j] != i \/ j >= S[i]);
constraint forall(i in sequences, j in slots)(T[j] != i \/ j <= E[i]);
constraint forall(i in sequences, j in slots)(i > last \/ T[j] = i \/ j < S[i] \/ j > E[i]);
constraint forall(i in sequences where i > 1)(i > last \/ S[i] > E[i - 1] + settle);
constraint forall(i in sequences)(i > last \/ E[i] >= S[i]);
constraint forall(i in sequences)(i > last \/ len > E[i] - S[i]);
constraint last <= y;
constraint global_cardinality(T, [0], [n - z]);
constraint global_cardinality(Z, [i | i in sequences], card);
