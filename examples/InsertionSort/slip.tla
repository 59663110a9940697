---- MODULE InsertionSort ----
EXTENDS Integers, Sequences, TLC

(* A list is sorted in its place, and is sorted at the end.

--algorithm InsertionSort
variables list \in {<<3, 1, 2>>, <<5, 4, 4, 1>>, <<>>}, next = 2, at = 0;

macro Swap(i, j)
begin
  list[i] := list[j]; list[j] := list[i];
end macro;
begin
  Outer:
    while next <= Len(list) do
      at := next;
      Inner:
        while at > 1 /\ list[at - 1] > list[at] do
          Swap(at - 1, at);
          at := at - 1;
        end while;
      Advance: next := next + 1;
    end while;
  Check: assert \A k \in 1..Len(list) - 1 : list[k] <= list[k + 1];
end algorithm
*)
====
